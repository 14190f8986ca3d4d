//! Inputs of expansions: all small regular formulas, random ones, and inputs whose results are around the most nodes.
use super::call::Input;
use crate::check::generate::{Random, action_row, random_formula, random_labels, table};

/// The most nodes of a formula.
pub const MOST: u32 = 1_024;

type Node = (u32, u32);

/// Every tree of this many nodes over the action formulas at these nodes, as the first of a row.
pub fn all_regulars(size: usize, actions: &[u32]) -> Vec<Vec<Node>> {
    all_trees(size, 0, actions)
}

fn all_trees(size: usize, at: u32, actions: &[u32]) -> Vec<Vec<Node>> {
    if size == 1 {
        return actions.iter().map(|&action| vec![(0, action)]).collect();
    }
    let mut trees = Vec::new();
    let mut under = |node: Node, rest: &[Node]| trees.push([&[node], rest].concat());
    for inner in all_trees(size - 1, at + 1, actions) {
        [3, 4].iter().for_each(|&kind| under((kind, 0), &inner));
    }
    for left in 1..size - 1 {
        let right = at + 1 + left as u32;
        let others = all_trees(size - 1 - left, right, actions);
        for first in all_trees(left, at + 1, actions) {
            for second in &others {
                let both = [&first[..], second].concat();
                [1, 2].iter().for_each(|&kind| under((kind, right), &both));
            }
        }
    }
    trees
}

/// What random inputs look like: the most nodes of a regular formula and (about) of the formula.
#[derive(Clone, Copy)]
pub struct Sizes {
    pub regular: usize,
    pub formula: usize,
}

/// Kinds with one child and with two that the regular formulas of an input have.
const PROFILES: [(&[u32], &[u32]); 6] =
    [(&[3, 4], &[1, 2]), (&[3], &[1, 2]), (&[4], &[1]), (&[3, 4], &[1, 1, 1, 2]), (&[4], &[2]), (&[3, 4], &[2])];

pub fn random_input(random: &mut Random, sizes: Sizes) -> Input {
    let labels = random_labels(random);
    let count = random.pick(&[0, 1, 1, 2, 3, 5]);
    let (actions, action_roots) = action_row(random, labels[0], count);
    let count = if action_roots.is_empty() { 0 } else { random.pick(&[0, 1, 1, 2, 3, 5]) };
    let (row, roots) = regular_row(random, &action_roots, count, sizes.regular);
    let formula = random_formula(random, &roots, sizes.formula);
    Input { labels, actions, regulars: table(&row), formula }
}

/// The row and the first nodes of its trees.
fn regular_row(random: &mut Random, actions: &[u32], trees: usize, most: usize) -> (Vec<Node>, Vec<u32>) {
    let (mut nodes, mut roots) = (Vec::new(), Vec::new());
    let kinds = random.pick(&PROFILES);
    for _ in 0..trees {
        roots.push(nodes.len() as u32);
        let size = random.within(1, most);
        let size = random.pick(&[1, 2, 3, size, size]);
        regular_tree(random, &mut nodes, actions, kinds, size);
    }
    (nodes, roots)
}

fn regular_tree(
    random: &mut Random,
    nodes: &mut Vec<Node>,
    actions: &[u32],
    kinds: (&'static [u32], &'static [u32]),
    size: usize,
) {
    let at = nodes.len();
    if size <= 1 {
        nodes.push((0, random.pick(actions)));
    } else if size == 2 || random.chance(30) {
        nodes.push((random.pick(kinds.0), 0));
        regular_tree(random, nodes, actions, kinds, size - 1);
    } else {
        let left = random.within(1, size - 2);
        nodes.push((random.pick(kinds.1), 0));
        regular_tree(random, nodes, actions, kinds, left);
        nodes[at].1 = nodes.len() as u32;
        regular_tree(random, nodes, actions, kinds, size - 1 - left);
    }
}

/// The same input under so many fixpoints more, each of which adds one node to what it is expanded to.
pub fn under_fixpoints(random: &mut Random, input: &Input, more: u32) -> Input {
    let nodes = input.formula[0] as usize;
    let (kinds, operands) = input.formula[1..].split_at(nodes);
    let mut table = vec![nodes as u32 + more];
    table.extend((0..more).map(|_| random.pick(&[6, 7])));
    table.extend(kinds);
    table.extend((0..more).map(|_| 0));
    table.extend(kinds.iter().zip(operands).map(|(kind, operand)| match kind {
        2 | 3 | 8 => operand + more,
        _ => *operand,
    }));
    Input { formula: table, ..input.clone() }
}
