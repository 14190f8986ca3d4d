//! Random games and random texts, most of them of the form, with faults of vertices, room and numbers.
use super::call::{Call, PLAIN, perform};
use crate::check::generate::{Random, any_word, random_game};
use crate::{Layout, game_words};

/// A game in which most vertices have successors, some of them repeated, and some starts are not vertex 0.
pub fn game(random: &mut Random, most: usize) -> Vec<u32> {
    if random.chance(20) {
        return random_game(random, most);
    }
    let n = random.within(1, most);
    let many = random.pick(&[1, 2, 3, 6, 40]);
    let degrees: Vec<u32> = (0..n).map(|_| random.within(1, many) as u32).collect();
    let stuck = random.chance(3).then(|| random.below(n));
    assembled(random, degrees.into_iter().enumerate().map(|(v, d)| if stuck == Some(v) { 0 } else { d }).collect())
}

/// A game of these out-degrees, with any owners, priorities, states, items, targets and counts.
fn assembled(random: &mut Random, degrees: Vec<u32>) -> Vec<u32> {
    let (n, m) = (degrees.len(), degrees.iter().sum());
    let initial = if random.chance(30) { random.below(n) as u32 } else { 0 };
    let mut words = vec![n as u32, m, initial];
    words.extend((0..n).map(|_| random.below(2) as u32));
    words.extend((0..n).map(|_| priority(random)));
    words.extend((0..2 * n).map(|_| any_word(random)));
    words.extend(std::iter::once(0).chain(degrees.iter().scan(0, |end, degree| {
        *end += degree;
        Some(*end)
    })));
    // Few different targets give many repeats.
    let targets = random.pick(&[n, n, n.min(3)]);
    words.extend((0..m).map(|_| random.below(targets) as u32));
    words.extend((0..m).map(|_| any_word(random)));
    words
}

/// The game with other states, items and counts, of which its text says nothing.
pub fn rewritten(random: &mut Random, game: &[u32]) -> Vec<u32> {
    let (mut words, layout) = (game.to_vec(), Layout::of(game));
    for column in [layout.states(), layout.items(), layout.counts()] {
        words[column].iter_mut().for_each(|word| *word = any_word(random));
    }
    words
}

/// Every count of digits, and the largest.
fn priority(random: &mut Random) -> u32 {
    match random.below(8) {
        0 => u32::MAX,
        1 => 10u32.pow(random.below(10) as u32) - 1,
        2 => 10u32.pow(random.below(10) as u32),
        3 => random.word() as u32,
        _ => random.below(12) as u32,
    }
}

/// Writes a game into slices around the length of its text: exact, longer, and too short.
pub fn lengths(random: &mut Random, game: &[u32]) -> Vec<Call> {
    let call = |text: usize| Call::Write { game: game.to_vec(), text };
    let enough = 40 + 15 * game.len();
    match perform(&call(enough), PLAIN, 0).answer {
        [0, bytes, ..] => {
            let bytes = bytes as usize;
            [bytes, bytes + random.within(1, 9), bytes - 1, random.below(bytes)].map(call).into()
        }
        _ => [enough, random.below(20)].map(call).into(),
    }
}

/// Reads a text into rooms around what it needs: exact, larger, one vertex and one edge too few; and into a slice of a
/// wrong length.
pub fn rooms(random: &mut Random, text: &[u8]) -> Vec<Call> {
    let count = |wanted: u8| text.iter().filter(|&&byte| byte == wanted).count() as u32;
    let (v, e) = (1 + count(b'\n'), 1 + count(b'\n') + count(b','));
    let largest = Call::read(text, v, e);
    let (n, m) = match perform(&largest, PLAIN, 0).answer {
        [0, _, n, m] => (n, m),
        _ => return vec![largest, Call::read(text, v.div_ceil(2), e.div_ceil(2))],
    };
    let wrong = game_words(n as usize, m as usize) + random.pick(&[1, 2]) - random.pick(&[0, 3]);
    let wrong = Call::Read { text: text.to_vec(), vertices: n, edges: m, game: wrong };
    let exact = Call::read(text, n, m);
    vec![largest, exact, Call::read(text, n - 1, m), Call::read(text, n, m - 1), wrong]
}

/// What the line of a vertex says, as it is spelled.
#[derive(Clone)]
pub struct Line {
    pub number: String,
    pub priority: String,
    pub owner: String,
    pub successors: Vec<String>,
    pub name: Option<Vec<u8>>,
}

#[derive(Clone)]
pub struct Draft {
    pub highest: String,
    pub lines: Vec<Line>,
}

impl Draft {
    /// A line for each vertex of a game, in order and without names.
    pub fn of_game(game: &[u32]) -> Draft {
        let layout = Layout::of(game);
        let line = |vertex: usize| Line {
            number: vertex.to_string(),
            priority: game[layout.priorities()][vertex].to_string(),
            owner: game[layout.owners()][vertex].to_string(),
            successors: game[layout.targets()][layout.edges_of(game, vertex)].iter().map(u32::to_string).collect(),
            name: None,
        };
        Draft { highest: (layout.vertices - 1).to_string(), lines: (0..layout.vertices).map(line).collect() }
    }

    pub fn spell(&self) -> Vec<u8> {
        let mut text = format!("parity {};\n", self.highest).into_bytes();
        for Line { number, priority, owner, successors, name } in &self.lines {
            text.extend(format!("{number} {priority} {owner} {}", successors.join(",")).bytes());
            if let Some(name) = name {
                text.extend([b" \"", &name[..], b"\""].concat());
            }
            text.extend(b";\n");
        }
        text
    }
}

pub fn shuffle<T>(random: &mut Random, of: &mut [T]) {
    for at in (1..of.len()).rev() {
        of.swap(at, random.below(at + 1));
    }
}

/// A text for a game, its lines in any order and with names.
pub fn draft(random: &mut Random, game: &[u32]) -> Draft {
    let mut draft = Draft::of_game(game);
    if random.chance(70) {
        shuffle(random, &mut draft.lines);
    }
    let share = random.pick(&[0, 50, 100]);
    for line in &mut draft.lines {
        line.name = random.chance(share).then(|| name(random));
    }
    draft
}

/// Anything but quotes and newlines, or what looks like a part of a text.
pub fn name(random: &mut Random) -> Vec<u8> {
    if random.chance(30) {
        return random
            .pick(&[&b""[..], b";", b"0 0 0 0;", b", ", b" ", b"\0", b"\xff\xfe", b"\r", b"'", b"\\"])
            .to_vec();
    }
    let length = random.pick(&[1, 3, 9, 40]);
    let byte = |_| random.pick(&[b'a', b';', b',', b' ', b'0', 0, 9, 13, 33, 35, 127, 128, 200, 255]);
    (0..length).map(byte).collect()
}

/// Numbers that are next to a limit, or beyond all of them.
pub fn number(random: &mut Random, highest: usize) -> String {
    match random.below(9) {
        0 => u32::MAX.to_string(),
        1 => (1u64 << 32).to_string(),
        2 => ((1u64 << 32) + highest as u64).to_string(),
        3 => u64::MAX.to_string(),
        4 => (1 + u64::MAX as u128).to_string(),
        5 => (1 + u64::MAX as u128 + highest as u128).to_string(),
        6 => format!("{}{}", random.within(1, 9), "0123456789".repeat(random.pick(&[2, 5, 300]))),
        7 => (highest + 1).to_string(),
        _ => random.below(highest + 3).to_string(),
    }
}

/// Changes one thing that leaves the form as it is: a number, or which lines there are.
pub fn alter(random: &mut Random, draft: &mut Draft) {
    let highest = draft.lines.len().saturating_sub(1);
    let new = number(random, highest);
    if draft.lines.is_empty() {
        draft.highest = new;
        return;
    }
    let at = random.below(draft.lines.len());
    let line = &mut draft.lines[at];
    match random.below(9) {
        0 => draft.highest = new,
        1 => line.number = new,
        2 | 3 => line.priority = random.pick(&["4294967295", "4294967296", "4294967297", &new]).to_string(),
        4 => {
            let place = random.below(line.successors.len().max(1));
            line.successors[place..].iter_mut().take(1).for_each(|successor| *successor = new.clone());
        }
        5 => line.successors.push(new),
        6 => drop(draft.lines.remove(at)),
        7 => {
            let again = line.clone();
            draft.lines.insert(random.below(draft.lines.len() + 1), again);
        }
        _ => line.successors.extend(line.successors.clone()),
    }
}
