//! Inputs of the thin program, as bytes, and the texts that it must write. A stored record has two little-endian words,
//! the lengths of the input and of its text in bytes, then the input, then the text.
use super::call::{Call, Outcome, PLAIN, perform};
use super::cases::{self, words};
use super::generate::{Random, Sizes, random_model, table};
use super::places;
use crate::{Answer, Model, bytes_of, game_lines, words_of};
use std::cmp::Ordering;

/// The program's room and step limit, and the most words that it takes.
const ROOM: (u32, u32, u32) = (512, 1_024, 512);
const MOST_WORDS: usize = 2_048;

/// What the program runs of its input, none where it refuses the bytes themselves.
pub fn model_of(bytes: &[u8]) -> Option<Model> {
    Model::from_bytes(bytes).ok().filter(|_| bytes.len() <= 4 * MOST_WORDS)
}

/// The ways in which the program refuses the bytes themselves.
pub const REFUSED: [&str; 6] = [
    "a broken last word",
    "fewer than four words",
    "more than 2,048 words",
    "lengths that sum to less",
    "lengths that sum to more",
    "lengths whose sum wraps to the total",
];

/// The first of those ways that an input shows; `None` if it is run.
pub fn refused_bytes(bytes: &[u8]) -> Option<&'static str> {
    let Ok(words) = words_of(bytes) else { return Some(REFUSED[0]) };
    if words.len() < 4 || words.len() > MOST_WORDS {
        return Some(REFUSED[if words.len() < 4 { 1 } else { 2 }]);
    }
    let (sum, rest): (u64, u64) = (words[..4].iter().map(|&length| length as u64).sum(), words.len() as u64 - 4);
    match sum.cmp(&rest) {
        Ordering::Equal => None,
        Ordering::Less => Some(REFUSED[3]),
        Ordering::Greater if sum % (1 << 32) == rest => Some(REFUSED[5]),
        Ordering::Greater => Some(REFUSED[4]),
    }
}

/// The run of a model in the program's room.
pub fn run_of(model: Model) -> Call {
    let (vertices, edges, limit) = ROOM;
    Call::build(model, vertices, edges, limit)
}

/// The text of a run, or of bytes that are refused.
pub fn text_of(outcome: Option<&Outcome>) -> Vec<u8> {
    let mut text = Vec::new();
    match outcome {
        None => text.extend(b"refused 2 0\n"),
        Some(run) => {
            game_lines(&mut text, &Answer::of_words(run.answer), &run.game).expect("a vector takes every byte");
        }
    }
    text
}

pub fn record(input: &[u8], text: &[u8]) -> Vec<u8> {
    [&bytes_of(&[input.len() as u32, text.len() as u32]), input, text].concat()
}

/// The records of a file as pairs of input and text; `None` if it doesn't end with a whole one.
pub fn records(mut bytes: &[u8]) -> Option<Vec<(Vec<u8>, Vec<u8>)>> {
    let mut all = Vec::new();
    while !bytes.is_empty() {
        let (head, rest) = bytes.split_first_chunk::<8>()?;
        let lengths = words_of(head).ok()?;
        let (input, rest) = rest.split_at_checked(lengths[0] as usize)?;
        let (text, rest) = rest.split_at_checked(lengths[1] as usize)?;
        all.push((input.to_vec(), text.to_vec()));
        bytes = rest;
    }
    Some(all)
}

/// All inputs, some of them more than once.
pub fn inputs() -> Vec<Vec<u8>> {
    let mut all: Vec<Vec<u8>> = models().iter().map(Model::to_bytes).collect();
    all.extend(broken());
    all.extend(disagreeing());
    all.extend(long());
    all
}

/// The worked cases, every kind of refusal, games at the limits of the room, and random ones.
fn models() -> Vec<Model> {
    let cases = cases::all().into_iter().map(|case| case.call);
    let places = places::single().into_iter().chain(places::pairs().into_iter().step_by(9)).map(|case| case.call);
    let mut models: Vec<Model> = cases.chain(places).filter_map(of_build).collect();
    models.extend(at_the_room());
    let mut random = Random::new(23);
    for (count, formula, states) in [(30, 9, 4), (20, 25, 9)] {
        models.extend((0..count).map(|_| random_model(&mut random, Sizes { formula, states, permuted: false })));
    }
    let sizes = Sizes { formula: 60, states: 40, permuted: false };
    models.extend(std::iter::repeat_with(|| random_model(&mut random, sizes)).filter(is_large).take(20));
    models
}

/// Has the game more than 100 vertices, or more than there is room for?
fn is_large(model: &Model) -> bool {
    let [case, _, vertices, _] = perform(&run_of(model.clone()), PLAIN, 0).answer;
    case == 2 || vertices > 100
}

fn of_build(call: Call) -> Option<Model> {
    match call {
        Call::Build { model, .. } => Some(model),
        Call::Restrict { .. } => None,
    }
}

/// One state with a loop on label 0, which is action 7.
fn on_a_loop(formula: Vec<u32>) -> Model {
    Model { labels: words("1 1 0 7"), system: words("1 1 0 1 0 0"), actions: words("1 2 0"), formula }
}

/// So many nodes: boxes around true.
fn boxes(count: usize) -> Vec<u32> {
    let mut nodes = vec![(4, 0); count - 1];
    nodes.push((0, 0));
    table(&nodes)
}

/// Always again, on states of these out-degrees. It needs three vertices for each state, two edges for each state and
/// one for each transition, and one more for each state without a transition.
fn always(degrees: &[u32]) -> Model {
    let (s, t) = (degrees.len() as u32, degrees.iter().sum());
    let mut system = [&[s, t, 0], degrees].concat();
    system.extend(vec![0; t as usize]);
    for (state, &degree) in degrees.iter().enumerate() {
        system.extend((1..=degree).map(|i| (state as u32 + i) % s));
    }
    Model { system, ..on_a_loop(words("3 7 4 8 0 0 0")) }
}

/// Exactly 512 vertices and 513; exactly 1,024 edges and 1,025, the last of them an edge or an added self-loop.
fn at_the_room() -> Vec<Model> {
    // State 1 is settled last.
    let degrees = |second: u32, last: u32| [vec![14, second], vec![14; 61], vec![last]].concat();
    let mut models: Vec<Model> = [511, 512].map(|count| on_a_loop(boxes(count))).to_vec();
    models.extend([(14, 14), (14, 15), (0, 27), (0, 28)].map(|(second, last)| always(&degrees(second, last))));
    // Three vertices for each of 170 and 171 states in a ring: 510 and 513.
    models.extend([170, 171].map(|states| always(&vec![1; states])));
    models
}

/// Fewer than four words, and a broken last word.
fn broken() -> Vec<Vec<u8>> {
    let mut all: Vec<Vec<u8>> = (0..=16).map(|n| vec![0; n]).collect();
    let first = on_a_loop(words("3 7 5 8 0 0 0")).to_bytes();
    all.extend((1..=3).map(|n| [&first[..], &vec![0; n]].concat()));
    all.extend((1..=5).map(|n| first[..first.len() - n].to_vec()));
    all.push(vec![255; 16]);
    all
}

/// The four lengths of case 1, 4 6 3 7, changed. A sum in 32 bits would agree in those that add up to 2^32 too much.
fn disagreeing() -> Vec<Vec<u8>> {
    let first = on_a_loop(words("3 7 5 8 0 0 0")).to_bytes();
    let half = 1 << 31;
    let lengths = [
        [5, 6, 3, 7],
        [3, 6, 3, 7],
        [4, 7, 3, 7],
        [4, 5, 3, 7],
        [4, 6, 4, 7],
        [4, 6, 2, 7],
        [4, 6, 3, 8],
        [4, 6, 3, 6],
        [0, 0, 0, 0],
        [4 + half, 6 + half, 3, 7],
        [4, 6, 3 + half, 7 + half],
        [u32::MAX, 14, 3, 4],
        [4, 6, 3, u32::MAX],
        // These add up to 20: the groups begin elsewhere, and the run refuses what it finds there.
        [5, 5, 3, 7],
        [4, 6, 4, 6],
        [20, 0, 0, 0],
        [0, 0, 0, 20],
        [4, 16, 0, 0],
        [4, 6, 10, 0],
    ];
    lengths.iter().map(|lengths| [&bytes_of(lengths), &first[16..]].concat()).collect()
}

/// 2,048 words and more, whose lengths agree, and long inputs that are nothing else.
fn long() -> Vec<Vec<u8>> {
    let labels = |a: usize| Model {
        labels: [vec![1, a as u32], vec![0; a], (0..a as u32).collect()].concat(),
        ..on_a_loop(words("3 7 5 8 0 0 0"))
    };
    let system = |t: u32| Model {
        system: [vec![1, t, 0, t], vec![0; 2 * t as usize]].concat(),
        ..on_a_loop(words("3 7 5 8 0 0 0"))
    };
    let two_states = |a: usize| Model { system: words("2 1 0 1 0 0 1"), ..labels(a) };
    let formula = |n: usize| Model { system: words("1 0 0 0"), ..on_a_loop(boxes(n)) };
    let models = [
        labels(1_013),
        labels(1_014),
        two_states(1_012),
        two_states(1_013),
        system(1_013),
        system(1_014),
        formula(1_016),
        formula(1_017),
        formula(1_024),
    ];
    let mut all: Vec<Vec<u8>> = models.iter().map(Model::to_bytes).collect();
    let most = all[0].clone();
    all.extend((1..=4).map(|n| [&most[..], &vec![0; n]].concat()));
    all.extend((1..=4).map(|n| most[..most.len() - n].to_vec()));
    all.extend([8_188, 8_192, 8_193, 8_196, 12_288, 16_384].map(|n| vec![0; n]));
    all
}
