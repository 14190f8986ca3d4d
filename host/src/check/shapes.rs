//! Large models: the shapes of the benchmark and its worst cases, each at a quarter, a half or the whole of its size.
use super::generate::{Random, table};
use crate::Model;

pub struct Shape {
    pub name: &'static str,
    pub what: &'static str,
    /// In quarters of its size.
    pub make: fn(u32) -> Model,
}

pub const SHAPES: [Shape; 8] = [
    Shape { name: "boxes", what: "greatest X, 14 boxes of true, X; 65,535 states", make: boxes },
    Shape { name: "boxes-negation", what: "the same with not (a0 or a1); 8 labels", make: boxes_negation },
    Shape { name: "alternation", what: "three alternating fixpoints; 65,535 states, 8 labels", make: alternation },
    Shape { name: "and-or", what: "six nested and/or under a box; 65,535 states", make: and_or },
    Shape { name: "deep", what: "1,022 boxes; 1,023 states, 4,092 transitions", make: deep },
    Shape { name: "nested", what: "1,022 nested alternating fixpoints around a box; 16 states", make: nested },
    Shape { name: "unions", what: "diamond of 512 multi-actions of 4; 65,535 states, 4,096 labels", make: unions },
    Shape { name: "parallel", what: "14 boxes; 2 states, 262,144 transitions", make: parallel },
];

pub const WORST: [Shape; 11] = [
    Shape { name: "one-state", what: "1,022 boxes; one state with 262,144 loops", make: one_state },
    Shape { name: "star", what: "3 boxes; state 0 has all 262,144 transitions", make: star },
    Shape { name: "negations", what: "box of 1,023 negations; 65,535 states, 262,144 transitions", make: negations },
    Shape {
        name: "union-misses",
        what: "box of not a union of 511 labels, none of them a transition's",
        make: union_misses,
    },
    Shape { name: "long-label", what: "one label of 16,384 actions, box of it", make: long_label },
    Shape {
        name: "long-labels",
        what: "two labels of 8,192 actions in different orders, box of one",
        make: long_labels,
    },
    Shape {
        name: "alike-labels",
        what: "diamond of one of 4,096 labels of 4 actions, alike but for the last",
        make: alike_labels,
    },
    Shape { name: "nested-500", what: "1,022 nested alternating fixpoints around a box; 500 states", make: nested_500 },
    Shape {
        name: "nested-1023",
        what: "1,023 nested alternating fixpoints around a reference; 1 state",
        make: nested_1023,
    },
    Shape {
        name: "piled",
        what: "1,023 boxes; 1,024 states at each, chosen so that all pairs start in a sixtieth of the slots",
        make: piled,
    },
    Shape { name: "unpiled", what: "the same with states chosen at random", make: unpiled },
];

const STATES: u32 = 65_535;
const TRANSITIONS: u32 = 262_144;

/// `l` labels of `a` actions each.
fn labels(l: u32, a: u32) -> Vec<u32> {
    let mut words = vec![l, l * a];
    words.extend((0..l * a).map(|i| i / a));
    words.extend((0..l * a).map(|i| 1_000_000 + i / a * 3 + i % a * 7));
    words
}

/// Each state's first transition leads to the next state, the others anywhere.
fn system(s: u32, t: u32, l: u32) -> Vec<u32> {
    let mut random = Random::new(1);
    let degrees: Vec<u32> = (0..s).map(|i| t / s + u32::from(i < t % s)).collect();
    let mut words = vec![s, t, 0];
    words.extend(&degrees);
    words.extend((0..t).map(|_| random.below(l as usize) as u32));
    for (state, &degree) in degrees.iter().enumerate() {
        words
            .extend((0..degree).map(|i| if i == 0 { (state as u32 + 1) % s } else { random.below(s as usize) as u32 }));
    }
    words
}

/// A part of the usual system: 65,535 states and 262,144 transitions at four quarters.
fn part(quarters: u32, l: u32) -> Vec<u32> {
    system(STATES * quarters / 4, TRANSITIONS * quarters / 4, l)
}

/// Greatest X, so many boxes of action tree 0, X.
fn box_chain(n: u32) -> Vec<u32> {
    let mut nodes = vec![(7, 0)];
    nodes.extend((0..n).map(|_| (4, 0)));
    nodes.push((8, 0));
    table(&nodes)
}

fn truth() -> Vec<u32> {
    table(&[(0, 0)])
}

/// The multi-actions of `n` labels from `first` on, joined by unions.
fn union(nodes: &mut Vec<(u32, u32)>, first: u32, n: u32) {
    for label in first..first + n {
        if label + 1 < first + n {
            nodes.push((3, nodes.len() as u32 + 2));
        }
        nodes.push((2, label));
    }
}

fn boxes(quarters: u32) -> Model {
    Model { labels: labels(1, 1), system: part(quarters, 1), actions: truth(), formula: box_chain(14) }
}

fn boxes_negation(quarters: u32) -> Model {
    let actions = table(&[(5, 0), (3, 3), (2, 0), (2, 1)]);
    Model { labels: labels(8, 1), system: part(quarters, 8), actions, formula: box_chain(14) }
}

/// Greatest X, least Y, greatest Z, ([a0]X and (<true>Y or ([not a1]Z and <a2>true))).
fn alternation(quarters: u32) -> Model {
    let formula = table(&[
        (7, 0),
        (6, 0),
        (7, 0),
        (2, 6),
        (4, 1),
        (8, 0),
        (3, 9),
        (5, 0),
        (8, 1),
        (2, 12),
        (4, 2),
        (8, 2),
        (5, 4),
        (0, 0),
    ]);
    let actions = table(&[(0, 0), (2, 0), (5, 0), (2, 1), (2, 2)]);
    Model { labels: labels(8, 1), system: part(quarters, 8), actions, formula }
}

fn and_or(quarters: u32) -> Model {
    let mut nodes = vec![(7, 0), (4, 0)];
    for i in 0..6 {
        nodes.push((2 + i % 2, nodes.len() as u32 + 2));
        nodes.push([(8, 0), (1, 0), (0, 0)][i as usize % 3]);
    }
    nodes.push((8, 0));
    Model { labels: labels(1, 1), system: part(quarters, 1), actions: truth(), formula: table(&nodes) }
}

fn deep(quarters: u32) -> Model {
    let s = 1_023 * quarters / 4;
    Model { labels: labels(1, 1), system: system(s, 4 * s, 1), actions: truth(), formula: box_chain(1_022) }
}

fn nested(quarters: u32) -> Model {
    let mut nodes: Vec<(u32, u32)> = (0..1_022).map(|i| (6 + i % 2, 0)).collect();
    nodes.extend([(4, 0), (8, 0)]);
    let s = 4 * quarters;
    Model { labels: labels(1, 1), system: system(s, 4 * s, 1), actions: truth(), formula: table(&nodes) }
}

fn unions(quarters: u32) -> Model {
    let mut nodes = vec![(0, 0)];
    union(&mut nodes, 0, 512);
    let formula = table(&[(7, 0), (2, 4), (4, 0), (8, 0), (5, 1), (0, 0)]);
    Model { labels: labels(4_096, 4), system: part(quarters, 4_096), actions: table(&nodes), formula }
}

fn parallel(quarters: u32) -> Model {
    let system = system(2, TRANSITIONS * quarters / 4, 1);
    Model { labels: labels(1, 1), system, actions: truth(), formula: box_chain(14) }
}

fn one_state(quarters: u32) -> Model {
    let system = system(1, TRANSITIONS * quarters / 4, 1);
    Model { labels: labels(1, 1), system, actions: truth(), formula: box_chain(1_022) }
}

fn star(quarters: u32) -> Model {
    let t = TRANSITIONS * quarters / 4;
    let mut random = Random::new(2);
    let mut words = vec![STATES, t, 0, t];
    words.extend(std::iter::repeat_n(0, STATES as usize - 1 + t as usize));
    words.extend((0..t).map(|_| random.below(STATES as usize) as u32));
    Model { labels: labels(1, 1), system: words, actions: truth(), formula: box_chain(3) }
}

fn negations(quarters: u32) -> Model {
    let mut nodes = vec![(5, 0); 1_023];
    nodes.push((2, 0));
    Model { labels: labels(2, 1), system: part(quarters, 2), actions: table(&nodes), formula: box_chain(1) }
}

fn union_misses(quarters: u32) -> Model {
    let mut nodes = vec![(5, 0)];
    union(&mut nodes, 1, 511);
    // Label 0 only: the union is looked through to its end each time.
    Model { labels: labels(512, 4), system: part(quarters, 1), actions: table(&nodes), formula: box_chain(1) }
}

fn long_label(quarters: u32) -> Model {
    let a = 16_384;
    let words = [vec![1, a], vec![0; a as usize], (0..a).rev().collect()].concat();
    Model { labels: words, system: part(quarters, 1), actions: table(&[(2, 0)]), formula: box_chain(1) }
}

fn long_labels(quarters: u32) -> Model {
    let a = 8_192;
    let numbers = (0..2 * a).map(|i| i / a).collect();
    let words = [vec![2, 2 * a], numbers, (0..a).collect(), (0..a).rev().collect()].concat();
    Model { labels: words, system: part(quarters, 2), actions: table(&[(2, 0)]), formula: box_chain(1) }
}

fn alike_labels(quarters: u32) -> Model {
    let mut words = vec![4_096, 16_384];
    words.extend((0..16_384).map(|i| i / 4));
    words.extend((0..16_384).map(|i| if i % 4 == 3 { 4_096 - i / 4 } else { i % 4 }));
    let formula = table(&[(7, 0), (2, 4), (4, 0), (8, 0), (5, 1), (0, 0)]);
    Model { labels: words, system: part(quarters, 4_096), actions: table(&[(0, 0), (2, 0)]), formula }
}

fn nested_500(quarters: u32) -> Model {
    Model { system: system(125 * quarters, 500 * quarters, 1), ..nested(1) }
}

fn nested_1023(quarters: u32) -> Model {
    let n = 1_023 * quarters / 4;
    let mut nodes: Vec<(u32, u32)> = (0..n).map(|i| (6 + i % 2, 0)).collect();
    nodes.push((8, 0));
    Model { labels: labels(1, 1), system: system(1, 1, 1), actions: truth(), formula: table(&nodes) }
}

/// Blocks of four states stand in a circle; a turn is the golden ratio's part of it: sums of neighbours in Fibonacci's
/// sequence, so that after 1,023 turns the error is a forty-thousandth of the circle at most.
const BLOCKS: u32 = 10_946 + 4_181 + 987;
const TURN: u32 = 6_765 + 2_584 + 610;

/// Boxes, of which each has pairs with 256 blocks of the states in this order, and from each state of a block
/// transitions to the four of the block that lies the turn before it. The initial state comes after all others.
fn turning(quarters: u32, order: &[u32]) -> Model {
    let s = 4 * BLOCKS;
    let block = |b: u32| order[4 * b as usize..][..4].iter().copied();
    let mut targets = vec![0; 4 * s as usize];
    for b in 0..BLOCKS {
        let next: Vec<u32> = block((b + BLOCKS - TURN) % BLOCKS).collect();
        block(b).for_each(|state| targets[4 * state as usize..][..4].copy_from_slice(&next));
    }
    targets.extend((0..256).flat_map(block));
    let mut words = vec![s + 1, targets.len() as u32, s];
    words.extend(std::iter::repeat_n(4, s as usize));
    words.push(1_024);
    words.extend(std::iter::repeat_n(0, targets.len()));
    words.extend(targets);
    let mut nodes = vec![(4, 0); 1_023 * quarters as usize / 4];
    nodes.push((0, 0));
    Model { labels: labels(1, 1), system: words, actions: truth(), formula: table(&nodes) }
}

/// An item that is one higher starts the golden ratio's part of all slots further up; a state's successors start as
/// much further down. So the pairs of all boxes but the first, which has one pair, start in the slots in which those of
/// the second do.
fn piled(quarters: u32) -> Model {
    let mut order: Vec<u32> = (0..4 * BLOCKS).collect();
    order.sort_by_key(|state| (state * 2_048).wrapping_mul(2_654_435_761));
    turning(quarters, &order)
}

fn unpiled(quarters: u32) -> Model {
    let mut order: Vec<u32> = (0..4 * BLOCKS).collect();
    let mut random = Random::new(3);
    (1..order.len()).rev().for_each(|i| order.swap(i, random.below(i + 1)));
    turning(quarters, &order)
}
