//! One call that writes or reads PGSolver text, with all that decides its outcome, performed on slices with guards
//! around them.
use crate::check::call::show;
use crate::check::lent::Lent;
use crate::{Layout, game_words, plain};

/// A call that writes a text: game; text, answer.
pub type Write = fn(&[u32], &mut [u8], &mut [u32; 4]);

/// A call that reads a text: text, room for vertices and edges; game, answer.
pub type Read = fn(&[u8], u32, u32, &mut [u32], &mut [u32; 4]);

/// Where to write and read.
#[derive(Clone, Copy)]
pub struct Implementation {
    pub name: &'static str,
    pub write: Write,
    pub read: Read,
}

pub const LIBRARY: Implementation = Implementation { name: "library", write: library_write, read: library_read };
pub const PLAIN: Implementation =
    Implementation { name: "plain", write: plain::write_pgsolver, read: plain::read_pgsolver };
/// The plain one that allocates nothing.
pub const LENT: Implementation =
    Implementation { name: "lent", write: plain::write_pgsolver_lent, read: plain::read_pgsolver_lent };

// The same as in library.rs, whose functions give the answer's meaning: here its four words are compared, and the
// words around them.
unsafe extern "C" {
    fn hingrezh_write_pgsolver(game: *const u32, game_len: usize, text: *mut u8, text_len: usize, answer: *mut u32);
    fn hingrezh_read_pgsolver(
        text: *const u8,
        text_len: usize,
        vertices: u32,
        edges: u32,
        game: *mut u32,
        game_len: usize,
        answer: *mut u32,
    );
}

fn library_write(game: &[u32], text: &mut [u8], answer: &mut [u32; 4]) {
    // SAFETY: each pointer comes with its slice's length, the borrows last for the call, and the written slices
    // overlap nothing.
    unsafe { hingrezh_write_pgsolver(game.as_ptr(), game.len(), text.as_mut_ptr(), text.len(), answer.as_mut_ptr()) }
}

fn library_read(text: &[u8], vertices: u32, edges: u32, game: &mut [u32], answer: &mut [u32; 4]) {
    let (from, to) = (text.as_ptr(), game.as_mut_ptr());
    // SAFETY: as above.
    unsafe { hingrezh_read_pgsolver(from, text.len(), vertices, edges, to, game.len(), answer.as_mut_ptr()) }
}

/// The lengths of the lent slices are free, so that wrong ones can be tried.
#[derive(Clone, Debug, PartialEq, Eq)]
pub enum Call {
    Write { game: Vec<u32>, text: usize },
    Read { text: Vec<u8>, vertices: u32, edges: u32, game: usize },
}

impl Call {
    /// Reads into a slice of the right length.
    pub fn read(text: impl Into<Vec<u8>>, vertices: u32, edges: u32) -> Call {
        let game = game_words(vertices as usize, edges as usize);
        Call::Read { text: text.into(), vertices, edges, game }
    }

    pub fn name(&self) -> &'static str {
        match self {
            Call::Write { .. } => "write",
            Call::Read { .. } => "read",
        }
    }

    /// The bytes handed over, for finding the smallest of several calls.
    pub fn size(&self) -> usize {
        match self {
            Call::Write { game, .. } => 4 * game.len(),
            Call::Read { text, .. } => text.len(),
        }
    }

    /// In a form that can be tried again.
    pub fn describe(&self) -> String {
        match self {
            Call::Write { game, text } => format!("write into a text of {text} bytes; game:\n{}", show(game)),
            Call::Read { text, vertices, edges, game } => format!(
                "read with V = {vertices}, E = {edges} into a game of {game} words; text:\n{}",
                show_bytes(text)
            ),
        }
    }
}

/// Bytes as in a string of Rust, the middle left out if there are very many.
pub fn show_bytes(bytes: &[u8]) -> String {
    match bytes.len() {
        0..=2_000 => format!("\"{}\"", bytes.escape_ascii()),
        many => format!(
            "\"{}\" .. \"{}\" ({many} bytes)",
            bytes[..1_000].escape_ascii(),
            bytes[many - 500..].escape_ascii()
        ),
    }
}

/// The slice lent for writing as a call left it: a text or a game, the other is empty.
#[derive(Clone, Debug, PartialEq, Eq)]
pub struct Outcome {
    pub answer: [u32; 4],
    pub text: Vec<u8>,
    pub game: Vec<u32>,
    /// What was read and what is around all slices is as it was.
    pub intact: bool,
}

impl Outcome {
    pub fn show(&self) -> String {
        let Outcome { answer, text, game, .. } = self;
        format!("answer {answer:?}; text {}; game {}", show_bytes(text), show(game))
    }
}

/// Performs a call; every byte or word of the slice lent for writing is `fill` before.
pub fn perform(call: &Call, by: Implementation, fill: u8) -> Outcome {
    let mut answer = Lent::filled(4, fill as u32);
    let four: &mut [u32; 4] = answer.write().try_into().expect("four words");
    let (text, game, intact) = match call {
        Call::Write { game, text } => {
            let (lent, mut text) = (Lent::copy(game), Lent::filled(*text, fill));
            (by.write)(lent.read(), text.write(), four);
            let intact = lent.guarded() && lent.read() == game && text.guarded();
            (text.inner(), Vec::new(), intact)
        }
        Call::Read { text, vertices, edges, game } => {
            let (lent, mut game) = (Lent::copy(text), Lent::filled(*game, fill as u32));
            (by.read)(lent.read(), *vertices, *edges, game.write(), four);
            let intact = lent.guarded() && lent.read() == text && game.guarded();
            (Vec::new(), game.inner(), intact)
        }
    };
    let intact = intact && answer.guarded();
    Outcome { answer: answer.read().try_into().expect("four words"), text, game, intact }
}

/// What holds after every call, whatever it was handed: zeros past what was written, a game that is read has states,
/// items and counts 0, and a refusal alters nothing.
pub fn unlawful(outcome: &Outcome, fill: u8) -> Option<&'static str> {
    let Outcome { answer, text, game, intact } = outcome;
    if !intact {
        return Some("something outside the lent slices, or lent for reading, was altered");
    }
    let zero_from = |end: usize| {
        let zeros = text.iter().skip(end).all(|&byte| byte == 0) && game.iter().skip(end).all(|&word| word == 0);
        (end > text.len().max(game.len()) || !zeros).then_some("after done, something past the end is not 0")
    };
    match *answer {
        // The other slice is empty; a game that was read counts its vertices as steps.
        [0, bytes, 0, 0] => zero_from(bytes as usize),
        [0, steps, n, m] if steps == n => {
            let layout = Layout { vertices: n as usize, edges: m as usize };
            let shown = || [layout.states(), layout.items(), layout.counts()].into_iter().flatten();
            let set = || shown().any(|at| game[at] != 0);
            zero_from(layout.words())
                .or_else(|| set().then_some("a game that was read has a state, an item or a count"))
        }
        [2, _, 0, 0] | [2, 52 | 53, _, 0] => {
            let same = text.iter().all(|&byte| byte == fill) && game.iter().all(|&word| word == fill as u32);
            (!same).then_some("a refusal altered the lent slice")
        }
        _ => Some("the answer's words are neither done nor refused"),
    }
}
