//! Inputs by their shape: at and around the most nodes, far beyond them, and those that the benchmark measures.
use super::call::Input;
use super::generate::MOST;
use crate::check::cases::words;
use crate::check::generate::table;

type Node = (u32, u32);

/// Label 0, which is action 7, and the one action formula for it.
fn input(regulars: &[Node], formula: &[Node]) -> Input {
    Input { labels: words("1 1 0 7"), actions: words("1 2 0"), regulars: table(regulars), formula: table(formula) }
}

/// So many boxes of the regular formula at a node, and true.
fn boxes(count: u32, regular: u32) -> Vec<Node> {
    let mut nodes = vec![(4, regular); count as usize];
    nodes.push((0, 0));
    nodes
}

/// So many nodes of kind 3 or 4 above an action formula.
fn repeated(kind: u32, count: u32) -> Vec<Node> {
    let mut nodes = vec![(kind, 0); count as usize];
    nodes.push((0, 0));
    nodes
}

/// (a + a) . (a + a) . .. : so many choices.
fn choices(count: u32) -> Vec<Node> {
    let mut nodes = Vec::new();
    for left in (0..count).rev() {
        let at = nodes.len() as u32;
        if left > 0 {
            nodes.push((1, at + 4));
        }
        nodes.push((2, nodes.len() as u32 + 2));
        nodes.extend([(0, 0), (0, 0)]);
    }
    nodes
}

/// a . a . .. : so many action formulas.
fn passes(count: u32) -> Vec<Node> {
    let mut nodes: Vec<Node> = (1..count).flat_map(|left| [(1, 2 * left), (0, 0)]).collect();
    nodes.push((0, 0));
    nodes
}

/// Box of so many choices in a row of true: 4 * 2^count - 3 nodes.
pub fn choices_in_a_row(count: u32) -> Input {
    input(&choices(count), &boxes(1, 0))
}

/// The same with a box for each choice.
pub fn boxes_of_choices(count: u32) -> Input {
    input(&choices(1), &boxes(count, 0))
}

/// A conjunction of box of so many choices and of box box true: 4 * 2^count + 1 nodes, which is 1 modulo 2^32 for 30
/// choices and modulo 2^64 for 62.
pub fn wrapping(choices_in_a_row: u32) -> Input {
    let mut regulars = choices(choices_in_a_row);
    let action = regulars.len() as u32;
    regulars.push((0, 0));
    input(&regulars, &[(2, 3), (4, 0), (0, 0), (4, action), (4, action), (0, 0)])
}

/// Box of so many stars, one in another, of true: 3 * count + 2 nodes.
pub fn stars(count: u32) -> Input {
    input(&repeated(3, count), &boxes(1, 0))
}

/// Box of so many pluses, one in another, of true.
pub fn pluses(count: u32) -> Input {
    input(&repeated(4, count), &boxes(1, 0))
}

/// So many boxes of one plus, and true: 5 * count + 1 nodes.
pub fn boxes_of_pluses(count: u32) -> Input {
    input(&repeated(4, 1), &boxes(count, 0))
}

/// So many boxes of an action formula, and true.
pub fn boxes_of_actions(count: u32) -> Input {
    input(&repeated(3, 0), &boxes(count, 0))
}

/// So many boxes of the last of a full row of regular formulas, an action formula behind a long sequence.
pub fn full_tables(count: u32) -> Input {
    let mut regulars = passes(MOST / 2);
    regulars.push((0, 0));
    input(&regulars, &boxes(count, MOST - 1))
}

/// So many boxes of a sequence of 512 action formulas, and true: 512 * count + 1 nodes.
pub fn boxes_of_passes(count: u32) -> Input {
    input(&passes(MOST / 2), &boxes(count, 0))
}

/// A conjunction of so many boxes of a sequence of 512 action formulas, each of true: 514 * count - 1 nodes. The first
/// two stand innermost.
pub fn conjunction_of_passes(count: u32) -> Input {
    let ands = count - 1;
    let mut nodes: Vec<Node> = (0..ands).map(|and| (2, ands + 2 * (ands - and))).collect();
    nodes.extend((0..count).flat_map(|_| [(4, 0), (0, 0)]));
    input(&passes(MOST / 2), &nodes)
}

/// So many regular formulas, each an action formula.
pub fn row_of_actions(count: u32) -> Input {
    input(&vec![(0, 0); count as usize], &boxes(1, 0))
}

/// So many fixpoints, one in another, around a reference to the outermost.
pub fn fixpoints(count: u32) -> Input {
    let mut nodes: Vec<Node> = (0..count).map(|node| (6 + node % 2, 0)).collect();
    nodes.push((8, 0));
    input(&[], &nodes)
}

/// So many fixpoints, one in another, each around a box of a star.
pub fn stars_under_fixpoints(count: u32) -> Input {
    let mut nodes: Vec<Node> = (0..count).flat_map(|node| [(6 + node % 2, 0), (4, 0)]).collect();
    nodes.push((8, 0));
    input(&repeated(3, 1), &nodes)
}

/// As engineers write it, on twenty labels: always, after any restarts and then an offer, the offer can be taken after
/// steps that are no restarts, or it is withdrawn.
fn engineers() -> Input {
    let labels = [vec![20, 20], (0..20).collect(), (100..120).collect()].concat();
    // true; restart; offer; not restart; taken; withdrawn
    let actions = table(&[(0, 0), (2, 3), (2, 7), (5, 0), (2, 3), (2, 11), (2, 12)]);
    // true; restart* . offer; not restart* . taken; withdrawn
    let regulars = table(&[(0, 0), (1, 4), (3, 0), (0, 1), (0, 2), (1, 8), (3, 0), (0, 3), (0, 5), (0, 6)]);
    // greatest X, [true] X and [restart* . offer] (<not restart* . taken> true or <withdrawn> true)
    let formula = table(&[(7, 0), (2, 4), (4, 0), (8, 0), (4, 1), (3, 8), (5, 5), (0, 0), (5, 9), (0, 0)]);
    Input { labels, actions, regulars, formula }
}

/// What the benchmark measures.
pub struct Shape {
    pub name: &'static str,
    pub what: &'static str,
    pub make: fn() -> Input,
}

pub const SHAPES: [Shape; 10] = [
    Shape { name: "engineers", what: "as engineers write it: 10 nodes, 10 of regular formulas", make: engineers },
    Shape { name: "choices-8", what: "box of eight choices in a row", make: || choices_in_a_row(8) },
    Shape { name: "stars-340", what: "box of 340 stars, one in another", make: || stars(340) },
    Shape { name: "pluses-204", what: "204 boxes of a plus", make: || boxes_of_pluses(204) },
    Shape { name: "boxes-1023", what: "1,023 boxes of action formulas", make: || full_tables(1_023) },
    Shape { name: "fixpoints", what: "1,023 fixpoints, one in another", make: || fixpoints(1_023) },
    Shape {
        name: "star-fixpoints",
        what: "204 fixpoints, one in another, each around a box of a star",
        make: || stars_under_fixpoints(204),
    },
    Shape { name: "choices-256", what: "box of 256 choices in a row", make: || choices_in_a_row(256) },
    Shape { name: "pluses-1023", what: "box of 1,023 pluses, one in another", make: || pluses(1_023) },
    Shape {
        name: "conjunction",
        what: "a conjunction of 341 boxes, each of a sequence of 512 action formulas",
        make: || conjunction_of_passes(341),
    },
];
