//! Stored runs: calls as records of a fixed size, and what they answer as lines.
//!
//! A record has 76 little-endian words:
//!
//! | word | build | restrict |
//! |---|---|---|
//! | 0 | 0 | 1 |
//! | 1, 2, 3 | V, E, k | 0 |
//! | 4 to 7 | lengths of labels, system, actions, formula | length of the game, 0, 0, 0 |
//! | 8 | length of the game slice | length of the output |
//! | 9 | 0 | length of the map |
//! | 10 | length of the work slice | length of the work slice |
//! | 11 | the word that fills every slice lent for writing before the call | the same |
//! | 12 to 75 | the slices one after the other, zeros past them | the same |
//!
//! The slices have at most 64 words in all, V is at most 16 and E at most 32, and no lent slice is longer than
//! 4 + 5 * 16 + 2 * 32 + 1 = 149 (game or output), 65 (map) or 8 * 16 + 2 * 32 + 1 = 193 words (work): the lengths that
//! V and E ask for, and one more.
//!
//! A line has the answer as the thin program prints it, `|`, the words of the game slice (or the output), `|`, the
//! words of the map (none for a build), `|`, and how many words of the work slice are not 0; parted by one space.
use super::call::{Call, Outcome};
use crate::{Answer, Model, bytes_of, game_words};

pub const RECORD: usize = 76;
const HEAD: usize = 12;
const MOST_GAME: usize = game_words(16, 32) + 1;
const MOST_MAP: usize = 65;
const MOST_WORK: usize = 193;

/// `None` if the call is too large for a record.
pub fn record(call: &Call, fill: u32) -> Option<Vec<u8>> {
    let (head, slices) = match call {
        Call::Build { model, vertices, edges, limit, game, work } => {
            // An out-of-range room is refused whatever the slices are; it may stand in a record, too.
            let fits = |size: u32, most: u32| size <= most || size > 1 << 20;
            if !(fits(*vertices, 16) && fits(*edges, 32) && *game <= MOST_GAME && *work <= MOST_WORK) {
                return None;
            }
            let lengths = model.parts().map(|part| part.len());
            let head =
                [&[0, *vertices, *edges, *limit], &lengths.map(|n| n as u32)[..], &[*game as u32, 0, *work as u32]];
            (head.concat(), join(model))
        }
        Call::Restrict { game, out, map, work } => {
            if *out > MOST_GAME || *map > MOST_MAP || *work > MOST_WORK {
                return None;
            }
            let head = [1, 0, 0, 0, game.len(), 0, 0, 0, *out, *map, *work];
            (head.map(|n| n as u32).to_vec(), game.clone())
        }
    };
    let mut words = [head, vec![fill], slices].concat();
    (words.len() <= RECORD).then(|| {
        words.resize(RECORD, 0);
        bytes_of(&words)
    })
}

fn join(model: &Model) -> Vec<u32> {
    model.parts().iter().flat_map(|part| part.iter().copied()).collect()
}

/// Reads a record back: the call and its fill.
pub fn call(words: &[u32; RECORD]) -> Option<(Call, u32)> {
    let length = |at: usize| words[at] as usize;
    let mut rest = &words[HEAD..];
    let mut slice = |at: usize| {
        let (front, back) = rest.split_at_checked(length(at))?;
        rest = back;
        Some(front.to_vec())
    };
    let call = if words[0] == 0 {
        let model = Model { labels: slice(4)?, system: slice(5)?, actions: slice(6)?, formula: slice(7)? };
        let [_, vertices, edges, limit, ..] = *words;
        Call::Build { model, vertices, edges, limit, game: length(8), work: length(10) }
    } else {
        Call::Restrict { game: slice(4)?, out: length(8), map: length(9), work: length(10) }
    };
    Some((call, words[HEAD - 1]))
}

/// The line of a call's outcome.
pub fn line(outcome: &Outcome) -> String {
    let mut text = format!("{} | ", Answer::of_words(outcome.answer));
    for group in [&outcome.game, &outcome.map] {
        group.iter().for_each(|word| text += &format!("{word} "));
        text += "| ";
    }
    text + &format!("{}\n", outcome.work.iter().filter(|&&word| word != 0).count())
}
