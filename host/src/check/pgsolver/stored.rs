//! Stored runs of the program `pgsolver_runs`: calls as records, and what they answer as lines.
//!
//! A record has five little-endian words: 0 for writing or 1 for reading; the room for vertices and for edges (0 for
//! writing); the length in bytes of what is handed over; the length of the lent slice, in bytes for a text and in words
//! for a game. Then what is handed over: a game's words or the bytes of a text.
//!
//! A line is one of `replay`'s, without map and work: the lent slice stands where a game does, all of it, byte by byte
//! or word by word.
use super::call::{Call, Outcome, PLAIN, perform, unlawful};
use super::generate::Draft;
use super::{cases, damage, generate, large};
use crate::check::generate::Random;
use crate::check::{call, kinds, record};
use crate::{bytes_of, game_words, words_of};

/// The most bytes handed over, and the most bytes or words lent.
pub const MOST: usize = 4_096;

/// What lent slices hold before a call, byte by byte or word by word.
pub const FILL: u8 = 7;

const HEAD: usize = 5;

/// `None` if the call is too large for the program.
pub fn coded(call: &Call) -> Option<Vec<u8>> {
    let (head, handed) = match call {
        Call::Write { game, text } => ([0, 0, 0, 4 * game.len() as u32, *text as u32], bytes_of(game)),
        Call::Read { text, vertices, edges, game } => {
            ([1, *vertices, *edges, text.len() as u32, *game as u32], text.clone())
        }
    };
    let fits = handed.len() <= MOST && head[4] as usize <= MOST;
    fits.then(|| [bytes_of(&head), handed].concat())
}

/// The calls of a file; `None` if it doesn't end with a whole record.
pub fn calls(mut bytes: &[u8]) -> Option<Vec<Call>> {
    let mut all = Vec::new();
    while !bytes.is_empty() {
        let (head, rest) = bytes.split_first_chunk::<{ 4 * HEAD }>()?;
        let [kind, vertices, edges, length, lent] = words_of(head).ok()?.try_into().ok()?;
        let (handed, rest) = rest.split_at_checked(length as usize)?;
        let lent = lent as usize;
        all.push(match kind {
            0 => Call::Write { game: words_of(handed).ok()?, text: lent },
            _ => Call::Read { text: handed.to_vec(), vertices, edges, game: lent },
        });
        bytes = rest;
    }
    Some(all)
}

/// The line of a call's outcome.
pub fn line(outcome: &Outcome) -> String {
    let Outcome { answer, text, game, intact } = outcome;
    let shown = text.iter().map(|&byte| byte as u32).chain(game.iter().copied()).collect();
    record::line(&call::Outcome { answer: *answer, game: shown, map: vec![], work: vec![], intact: *intact })
}

/// The number of a refusal, 0 for done, and its cause: for no game the kind of place, for others what can be told from
/// the sizes.
pub fn cause(called: &Call, answer: [u32; 4]) -> (u32, String) {
    let [case, number, place, _] = answer;
    if case != 2 {
        return (0, String::new());
    }
    let cause = match (called, number) {
        (Call::Write { game, .. }, 51..=53) => kinds::kind(&call::Call::restrict(game.clone()), number, place),
        (Call::Write { .. }, 98) => "a vertex without successors".to_string(),
        (Call::Write { .. }, _) => "text slice too short".to_string(),
        (Call::Read { vertices, edges, .. }, 1) => kinds::room(*vertices, *edges),
        (Call::Read { vertices, edges, game, .. }, 2) => {
            let short = *game < game_words(*vertices as usize, *edges as usize);
            format!("game slice too {}", if short { "short" } else { "long" })
        }
        (_, 91) => "not of the form".to_string(),
        (_, 92) => "a vertex missing, given twice or above the highest".to_string(),
        _ => "vertices, edges or a priority beyond the room".to_string(),
    };
    (number, cause)
}

/// Where the plain implementation's outcome is not the one written down by hand, that case.
pub fn not_as_written_down() -> Option<String> {
    let wrong = |case: &cases::Case| {
        let got = perform(&case.call, PLAIN, FILL);
        let same = got.answer == case.answer
            && case.text.as_ref().is_none_or(|text| got.text.starts_with(text))
            && case.game.as_ref().is_none_or(|game| got.game.starts_with(game));
        !same || unlawful(&got, FILL).is_some()
    };
    let case = cases::all().into_iter().find(wrong)?;
    Some(format!("{}: not {:?}\n{}", case.name, case.answer, case.call.describe()))
}

/// The cases written down by hand; a small text up to each of its bytes, and with bytes changed; random games, written
/// into slices around the length of their text; the texts, with names and in any order, read into rooms around what
/// they need; texts that are read in larger pieces.
pub fn all() -> Vec<Call> {
    let mut calls: Vec<Call> = cases::all().into_iter().map(|case| case.call).collect();
    let small = damage::truncated(damage::SMALL[1]).chain(damage::changed(damage::SMALL[1]).step_by(29));
    calls.extend(small.map(|text| Call::read(text, 3, 4)));
    let mut random = Random::new(41);
    for most in [1, 2, 3, 3, 5, 5, 8, 8, 12, 20] {
        let game = small_game(&mut random, most);
        calls.extend(generate::lengths(&mut random, &game));
        let text = generate::draft(&mut random, &game).spell();
        calls.extend(generate::rooms(&mut random, &text));
    }
    for text in in_pieces(&mut random) {
        calls.extend(generate::rooms(&mut random, &text));
    }
    calls
}

/// Numbers of one to three digits, in order; the same lines in any order, and one of them in the place of another; a
/// list with many repeats; names of all lengths around a block of 64 bytes, and with a newline there.
fn in_pieces(random: &mut Random) -> Vec<Vec<u8>> {
    let game = large::game(120, 2);
    let ordered = Draft::of_game(&game);
    let mut shuffled = ordered.clone();
    generate::shuffle(random, &mut shuffled.lines);
    let mut twice = shuffled.clone();
    twice.lines[3] = twice.lines[77].clone();
    let mut texts: Vec<Vec<u8>> = [ordered.clone(), shuffled, twice].iter().map(Draft::spell).collect();
    let mut few = Draft { highest: "11".to_string(), lines: ordered.lines[..12].to_vec() };
    few.lines.iter_mut().for_each(|line| line.successors = vec!["11".to_string(), "0".to_string()]);
    few.lines[5].successors = (0..500).map(|i| (i * i % 12).to_string()).collect();
    texts.push(few.spell());
    few.lines[5].successors.truncate(1);
    for (line, length) in few.lines.iter_mut().zip([0, 1, 61, 62, 63, 64, 65, 66, 127, 128, 129, 200]) {
        line.name = Some(vec![b'x'; length]);
    }
    texts.push(few.spell());
    for place in [0, 63, 64, 199] {
        let mut broken = few.clone();
        broken.lines[11].name.as_mut().expect("a name")[place] = b'\n';
        texts.push(broken.spell());
    }
    texts
}

/// A game with few edges.
fn small_game(random: &mut Random, most: usize) -> Vec<u32> {
    loop {
        let game = generate::game(random, most);
        if game[1] <= 60 {
            return game;
        }
    }
}
