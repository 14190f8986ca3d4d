//! One call with all that decides its outcome, performed on slices with guard words around them.
use super::lent::Lent;
use crate::{Model, game_words, library, plain};

/// A call that builds a game: labels, system, actions, formula; room for vertices and edges, step limit; game,
/// work, answer.
pub type Translate = fn(&[u32], &[u32], &[u32], &[u32], u32, u32, u32, &mut [u32], &mut [u32], &mut [u32; 4]);

/// A call that restricts a game: game; output, map, work, answer.
pub type ComputeReachable = fn(&[u32], &mut [u32], &mut [u32], &mut [u32], &mut [u32; 4]);

/// A library to call.
#[derive(Clone, Copy)]
pub struct Implementation {
    pub name: &'static str,
    pub translate: Translate,
    pub compute_reachable: ComputeReachable,
}

pub const LIBRARY: Implementation =
    Implementation { name: "library", translate: library::translate, compute_reachable: library::compute_reachable };
pub const PLAIN: Implementation =
    Implementation { name: "plain", translate: plain::translate, compute_reachable: plain::compute_reachable };

/// The lengths of the lent slices are free, so that wrong ones can be tried.
#[derive(Clone, Debug)]
pub enum Call {
    Build { model: Model, vertices: u32, edges: u32, limit: u32, game: usize, work: usize },
    Restrict { game: Vec<u32>, out: usize, map: usize, work: usize },
}

impl Call {
    /// With slices of the right lengths.
    pub fn build(model: Model, vertices: u32, edges: u32, limit: u32) -> Call {
        let (v, e) = (vertices as usize, edges as usize);
        Call::Build { model, vertices, edges, limit, game: game_words(v, e), work: 8 * v + 2 * e }
    }

    pub fn restrict(game: Vec<u32>) -> Call {
        let n = game.first().map_or(0, |&n| n as usize).min(game.len());
        Call::Restrict { out: game.len(), map: n, work: n, game }
    }

    /// The words handed over, for finding the smallest of several calls.
    pub fn size(&self) -> usize {
        match self {
            Call::Build { model, .. } => model.size(),
            Call::Restrict { game, .. } => game.len(),
        }
    }

    /// In a form that can be tried again.
    pub fn describe(&self) -> String {
        match self {
            Call::Build { model, vertices, edges, limit, game, work } => {
                let parts = model.parts().map(|part| show(part)).join("\n");
                format!(
                    "build with V = {vertices}, E = {edges}, k = {limit}, game and work of {game} and {work} words;\n\
                     labels, system, actions, formula:\n{parts}"
                )
            }
            Call::Restrict { game, out, map, work } => {
                format!("restrict with output, map and work of {out}, {map} and {work} words; game:\n{}", show(game))
            }
        }
    }
}

/// Words in a line, the middle left out if there are very many.
pub fn show(words: &[u32]) -> String {
    let text = |words: &[u32]| words.iter().map(u32::to_string).collect::<Vec<_>>().join(" ");
    match words.len() {
        0 => "(none)".to_string(),
        1..=400 => text(words),
        many => format!("{} .. {} ({many} words)", text(&words[..200]), text(&words[many - 100..])),
    }
}

/// The slices as a call left them. A build has no map.
#[derive(Clone, Debug, PartialEq, Eq)]
pub struct Outcome {
    pub answer: [u32; 4],
    pub game: Vec<u32>,
    pub map: Vec<u32>,
    pub work: Vec<u32>,
    /// The words read and the words around all slices are as they were.
    pub intact: bool,
}

/// Performs a call; every word of the slices lent for writing is `fill` before.
pub fn perform(call: &Call, by: Implementation, fill: u32) -> Outcome {
    match call {
        Call::Build { model, vertices, edges, limit, game, work } => {
            let parts = model.parts().map(|part| Lent::copy(part));
            let (mut game, mut work) = (Lent::filled(*game, fill), Lent::filled(*work, fill));
            let mut answer = Lent::filled(4, fill);
            let [labels, system, actions, formula] = parts.each_ref().map(|part| part.read());
            let four: &mut [u32; 4] = answer.write().try_into().expect("four words");
            (by.translate)(
                labels,
                system,
                actions,
                formula,
                *vertices,
                *edges,
                *limit,
                game.write(),
                work.write(),
                four,
            );
            let mut intact =
                parts.iter().zip(model.parts()).all(|(part, words)| part.guarded() && part.read() == words);
            intact = intact && game.guarded() && work.guarded() && answer.guarded();
            let answer = answer.read().try_into().expect("four words");
            Outcome { answer, game: game.inner(), map: Vec::new(), work: work.inner(), intact }
        }
        Call::Restrict { game, out, map, work } => {
            let lent = Lent::copy(game);
            let [mut out, mut map, mut work] = [*out, *map, *work].map(|length| Lent::filled(length, fill));
            let mut answer = Lent::filled(4, fill);
            let four: &mut [u32; 4] = answer.write().try_into().expect("four words");
            (by.compute_reachable)(lent.read(), out.write(), map.write(), work.write(), four);
            let mut intact = lent.guarded() && lent.read() == game;
            intact = intact && [&out, &map, &work, &answer].iter().all(|slice| slice.guarded());
            let answer = answer.read().try_into().expect("four words");
            Outcome { answer, game: out.inner(), map: map.inner(), work: work.inner(), intact }
        }
    }
}

/// What holds after every call, whatever its words: which slices are cleared, and that a refusal alters nothing.
pub fn unlawful(outcome: &Outcome, fill: u32) -> Option<&'static str> {
    let Outcome { answer, game, map, work, intact } = outcome;
    let all = |words: &[u32], value: u32| words.iter().all(|&word| word == value);
    if !intact {
        return Some("a word outside the lent slices, or one lent for reading, was altered");
    }
    match answer {
        [0 | 1, _, vertices, edges] => {
            let end = game_words(*vertices as usize, *edges as usize);
            let fine = end <= game.len() && all(&game[end..], 0) && all(work, 0);
            (!fine).then_some("after done or cut, work or the words past the game's end are not 0")
        }
        [2, 60, 0, 0] => {
            let fine = all(game, 0) && all(work, 0);
            (!fine).then_some("after refusal 60, game or work is not all 0")
        }
        [2, _, _, 0] => {
            let fine = all(game, fill) && all(map, fill) && all(work, fill);
            (!fine).then_some("a refusal altered a lent slice")
        }
        _ => Some("the answer's words are none of done, cut or refused"),
    }
}
