//! Damaged calls: words, lengths, room and lent slices changed at random, once or several times.
use super::call::Call;
use super::generate::{Random, any_word};
use crate::{Layout, Model};

/// Numbers next to the limits of some size, and next to nothing.
const NUMBERS: [u32; 22] = [
    0,
    1,
    2,
    3,
    5,
    6,
    8,
    9,
    10,
    1_024,
    1_025,
    4_096,
    4_097,
    16_384,
    16_385,
    65_535,
    65_536,
    262_144,
    262_145,
    1 << 31,
    u32::MAX - 1,
    u32::MAX,
];

/// A number that is likely to be just right or just wrong in the place of `old`; `sizes` are those of the input.
fn number(random: &mut Random, old: u32, sizes: &[u32]) -> u32 {
    match random.below(6) {
        0 => old.wrapping_add(1),
        1 => old.wrapping_sub(1),
        2 => random.pick(&NUMBERS),
        3 => random.below(12) as u32,
        _ if sizes.is_empty() => 0,
        4 => random.pick(sizes),
        _ => random.pick(sizes).wrapping_sub(1),
    }
}

/// Changes one word, or the length, of a slice.
pub(super) fn damage_words(random: &mut Random, words: &mut Vec<u32>, sizes: &[u32]) {
    if words.is_empty() || random.chance(20) {
        return damage_length(random, words);
    }
    // The sizes at the front are a small part of long slices, and every check begins with them.
    let at = if random.chance(25) { random.below(words.len().min(3)) } else { random.below(words.len()) };
    words[at] = number(random, words[at], sizes);
}

fn damage_length(random: &mut Random, words: &mut Vec<u32>) {
    match random.below(5) {
        0 => words.push(random.below(3) as u32),
        1 => words.insert(random.below(words.len() + 1), random.below(3) as u32),
        2 => words.truncate(random.below(4)),
        _ if words.is_empty() => words.push(0),
        3 => {
            words.pop();
        }
        _ => {
            words.remove(random.below(words.len()));
        }
    }
}

/// Gives a table another number of nodes and the length for it, so that only the number is wrong.
pub(super) fn damage_size(random: &mut Random, words: &mut Vec<u32>) {
    let size = random.pick(&[0, 0, 1_024, 1_025, 1_026, 2_000]);
    words.resize(1 + 2 * size, 0);
    words[0] = size as u32;
}

/// A system without states, or with too many, and the length for it.
fn damage_states(random: &mut Random, words: &mut Vec<u32>) {
    let s = random.pick(&[0, 0, 0, 65_536]);
    *words = vec![0; 3 + s];
    words[0] = s as u32;
}

/// A game as it was before vertices had states and items, or before edges had counts, too.
fn drop_columns(random: &mut Random, game: &mut Vec<u32>) {
    let Some(&[n, m]) = game.first_chunk() else { return };
    let layout = Layout { vertices: n as usize, edges: m as usize };
    let [states, offsets] = [layout.states().start, layout.offsets().start].map(|at| at.min(game.len()));
    game.drain(states..offsets);
    if random.chance(50) {
        game.truncate(game.len().saturating_sub(layout.edges));
    }
}

/// Any words in the place of states and items: none is wrong.
fn damage_places(random: &mut Random, game: &mut [u32]) {
    let Some(&[n, m]) = game.first_chunk() else { return };
    let layout = Layout { vertices: n as usize, edges: m as usize };
    let both = game.get_mut(layout.states().start..layout.offsets().start).unwrap_or_default();
    both.iter_mut().for_each(|word| *word = any_word(random));
}

fn damage_lent(random: &mut Random, length: &mut usize) {
    *length = match random.below(4) {
        0 => 0,
        1 => length.saturating_sub(1),
        2 => *length + 1,
        _ => random.below(*length + 3),
    };
}

fn one_of<'a, T, const N: usize>(random: &mut Random, of: [&'a mut T; N]) -> &'a mut T {
    of.into_iter().nth(random.below(N)).expect("a number below the length")
}

/// Changes one thing about a call, which may leave it valid.
pub fn damage(random: &mut Random, call: &mut Call) {
    match call {
        Call::Build { model, vertices, edges, limit, game, work } => match random.below(20) {
            0 => *one_of(random, [vertices, edges]) = random.pick(&[0, 1, 3, (1 << 22) + 1, u32::MAX]),
            1 => {
                let length = one_of(random, [game, work]);
                damage_lent(random, length)
            }
            2 => *limit = random.below(4) as u32,
            _ => damage_model(random, model),
        },
        Call::Restrict { game, out, map, work } => {
            if random.chance(12) {
                let length = one_of(random, [out, map, work]);
                damage_lent(random, length)
            } else if random.chance(4) {
                drop_columns(random, game)
            } else if random.chance(4) {
                damage_places(random, game)
            } else {
                let sizes: Vec<u32> = game.iter().take(2).copied().collect();
                damage_words(random, game, &sizes)
            }
        }
    }
}

fn damage_model(random: &mut Random, model: &mut Model) {
    let sizes = model.parts().map(|part| part.first().copied().unwrap_or(0));
    let Model { labels, system, actions, formula } = model;
    match random.below(40) {
        0 => damage_states(random, system),
        1 => damage_size(random, actions),
        2 => damage_size(random, formula),
        _ => {
            let words = one_of(random, [labels, system, actions, formula]);
            damage_words(random, words, &sizes)
        }
    }
}
