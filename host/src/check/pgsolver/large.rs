//! Large games and texts: round trips, vertex numbers beyond the room, and the inputs of the benchmark.
use super::call::Call;
use super::generate::shuffle;
use crate::check::generate::Random;
use crate::check::shapes::SHAPES;
use crate::plain::{MOST_EDGES, MOST_VERTICES};
use crate::{Answer, Layout, Room};
use std::io::Write;

/// The game with repeated edges removed, from vertex 0 and with all states, items and counts 0: what its text says.
pub fn without_repeats(game: &[u32]) -> Vec<u32> {
    let (layout, n) = (Layout::of(game), game[0] as usize);
    let (mut offsets, mut targets) = (vec![0], Vec::new());
    let mut met = vec![u32::MAX; n];
    for vertex in 0..n {
        for &target in &game[layout.targets()][layout.edges_of(game, vertex)] {
            if met[target as usize] != vertex as u32 {
                met[target as usize] = vertex as u32;
                targets.push(target);
            }
        }
        offsets.push(targets.len() as u32);
    }
    let head = [game[0], targets.len() as u32, 0];
    let vertices = &game[layout.owners().start..layout.priorities().end];
    let (states_and_items, counts) = (vec![0; 2 * n], vec![0; targets.len()]);
    [&head, vertices, &states_and_items, &offsets, &targets, &counts].concat()
}

/// So many vertices with so many edges each; of four, about one in eleven repeats the one before it.
pub fn game(n: u32, degree: u32) -> Vec<u32> {
    let mut random = Random::new(5);
    let mut words = vec![n, n * degree, 0];
    words.extend((0..n).map(|vertex| vertex % 2));
    words.extend((0..n).map(|vertex| vertex % 7));
    words.extend((0..2 * n).map(|place| place % 11));
    words.extend((0..=n).map(|vertex| degree * vertex));
    for _ in 0..n * degree {
        let last = words[words.len() - 1];
        let target = if random.chance(12) { last.min(n - 1) } else { random.below(n as usize) as u32 };
        words.push(target);
    }
    words.extend((0..n * degree).map(|edge| edge % 5));
    words
}

/// A text of a game, repeats and all.
pub fn text(game: &[u32]) -> Vec<u8> {
    let layout = Layout::of(game);
    let [owners, priorities, targets] =
        [layout.owners(), layout.priorities(), layout.targets()].map(|column| &game[column]);
    let mut text = format!("parity {};\n", layout.vertices - 1).into_bytes();
    for vertex in 0..layout.vertices {
        let mut before = format!("{vertex} {} {} ", priorities[vertex], owners[vertex]);
        for target in &targets[layout.edges_of(game, vertex)] {
            write!(text, "{before}{target}").expect("a vector takes every byte");
            before = ",".to_string();
        }
        text.extend(b";\n");
    }
    text
}

/// The lines of a text in another order; each with a name of so many bytes.
pub fn rearranged(text: &[u8], shuffled: bool, name: usize) -> Vec<u8> {
    let mut lines: Vec<&[u8]> = text.split_inclusive(|&byte| byte == b'\n').collect();
    let header = lines.remove(0);
    if shuffled {
        shuffle(&mut Random::new(6), &mut lines);
    }
    let name = if name == 0 { Vec::new() } else { [b" \"", &vec![b'x'; name][..], b"\""].concat() };
    let mut new = header.to_vec();
    new.reserve(text.len() + lines.len() * name.len());
    for line in lines {
        new.extend(&line[..line.len() - 2]);
        new.extend(&name);
        new.extend(b";\n");
    }
    new
}

/// A line with a loop to vertex 0 for each number; the highest number is `highest`.
fn loops(highest: u32, numbers: impl Iterator<Item = u32>) -> Vec<u8> {
    let mut text = Vec::new();
    let mut line = |words: std::fmt::Arguments| writeln!(text, "{words}").expect("a vector takes every byte");
    line(format_args!("parity {highest};"));
    numbers.for_each(|number| line(format_args!("{number} 0 0 0;")));
    text
}

/// Texts with as many vertices as fit the largest room, and more: right, and with one vertex in the place of another.
pub fn at_the_largest_room() -> Vec<(Call, [u32; 4])> {
    const MOST: u32 = MOST_VERTICES;
    let mut texts = vec![
        (loops(MOST - 1, 0..MOST), [0, MOST, MOST, MOST]),
        (loops(MOST - 1, (0..MOST).rev()), [0, MOST, MOST, MOST]),
        (loops(MOST - 1, (0..MOST - 1).chain([7])), [2, 92, 0, 0]),
        (loops(MOST - 1, (0..MOST - 1).chain([MOST])), [2, 92, 0, 0]),
        (loops(MOST, 0..MOST), [2, 92, 0, 0]),
    ];
    for count in [MOST + 1, MOST + 2, 2 * MOST, 2 * MOST + 1] {
        let highest = count - 1;
        texts.push((loops(highest, 0..count), [2, 93, 0, 0]));
        for instead in [0, MOST - 1, highest - 1, count] {
            texts.push((loops(highest, (0..highest).chain([instead])), [2, 92, 0, 0]));
        }
        // Numbers that share a bit of a map with another one, 2^20 apart.
        texts.push((loops(highest, (1..count).chain([count - MOST])), [2, 92, 0, 0]));
    }
    texts.into_iter().map(|(text, answer)| (Call::read(text, MOST, MOST_EDGES), answer)).collect()
}

// ---- the benchmark's inputs

/// A game to write, where there is one of its own, and a text to read.
pub struct TextInput {
    pub game: Option<Vec<u32>>,
    pub text: Vec<u8>,
}

pub struct TextShape {
    pub name: &'static str,
    pub what: &'static str,
    pub sizes: &'static [u32],
    /// In quarters of its size.
    pub make: fn(u32) -> TextInput,
}

pub const TEXT_SHAPES: [TextShape; 9] = [
    TextShape {
        name: "text-boxes",
        what: "the game of `boxes`",
        sizes: &[1, 2, 4],
        make: |quarters| built("boxes", quarters),
    },
    TextShape {
        name: "text-alternation",
        what: "the game of `alternation`",
        sizes: &[1, 2, 4],
        make: |quarters| built("alternation", quarters),
    },
    TextShape {
        name: "text-and-or",
        what: "the game of `and-or`",
        sizes: &[1, 2, 4],
        make: |quarters| built("and-or", quarters),
    },
    TextShape {
        name: "million",
        what: "1,000,000 vertices and 4,000,000 edges, one in eleven of them a repeat; what is read has no repeats",
        sizes: &[4],
        make: |quarters| {
            let game = game(250_000 * quarters, 4);
            TextInput { text: text(&without_repeats(&game)), game: Some(game) }
        },
    },
    TextShape {
        name: "million-shuffled",
        what: "the same text, lines in random order",
        sizes: &[4],
        make: |quarters| read_only(250_000 * quarters, true, 0),
    },
    TextShape {
        name: "million-repeats",
        what: "the text with the repeats, into room that just holds what is kept",
        sizes: &[4],
        make: |quarters| TextInput { game: None, text: text(&game(250_000 * quarters, 4)) },
    },
    TextShape {
        name: "names",
        what: "100,000 vertices, each with a name of 400 bytes",
        sizes: &[4],
        make: |quarters| read_only(25_000 * quarters, false, 400),
    },
    TextShape {
        name: "hub",
        what: "vertex 0 has 3,000,000 edges to 1,000,000 vertices, two thirds of them repeats",
        sizes: &[4],
        make: |quarters| both(hub(250_000 * quarters, 750_000 * quarters)),
    },
    TextShape {
        name: "hub-repeats",
        what: "vertex 0 has 4,000,000 edges to 1,000 vertices, nearly all of them repeats",
        sizes: &[4],
        make: |quarters| both(hub(1_000, 1_000_000 * quarters)),
    },
];

/// The text of so many vertices with four edges each, without repeats, its lines rearranged.
fn read_only(n: u32, shuffled: bool, name: usize) -> TextInput {
    TextInput { game: None, text: rearranged(&text(&without_repeats(&game(n, 4))), shuffled, name) }
}

fn both(game: Vec<u32>) -> TextInput {
    TextInput { text: text(&game), game: Some(game) }
}

fn built(shape: &str, quarters: u32) -> TextInput {
    let shape = SHAPES.iter().find(|other| other.name == shape).expect("a shape of the benchmark");
    let built = (shape.make)(quarters).build(Room::MOST, u32::MAX);
    assert!(matches!(built.answer, Answer::Done { .. }), "a shape that fits the largest room");
    both(built.game)
}

/// Vertex 0 leads anywhere, so many times; every other vertex to vertex 0.
fn hub(n: u32, degree: u32) -> Vec<u32> {
    let mut random = Random::new(7);
    let mut words = vec![n, degree + n - 1, 0];
    words.extend((0..n).map(|vertex| vertex % 2));
    words.extend((0..n).map(|vertex| vertex % 7));
    words.extend((0..2 * n).map(|place| place % 11));
    words.push(0);
    words.extend((0..n).map(|vertex| degree + vertex));
    words.extend((0..degree).map(|_| random.below(n as usize) as u32));
    words.extend(std::iter::repeat_n(0, n as usize - 1));
    words.extend((0..degree + n - 1).map(|edge| edge % 5));
    words
}
