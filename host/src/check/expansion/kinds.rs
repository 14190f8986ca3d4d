//! The kinds of place at which expansions are refused, and which kind a refused call shows.
use super::call::{Call, EXPANDED, Input};
use super::cases::base;
use super::generate::MOST;
use crate::Formulas;
use crate::check::call;
use crate::check::kinds::{self, length, missing, open_nodes};
use crate::sizes::expanded_nodes;

/// The kinds of place that no other call has, by number.
const OWN: [(u32, &[&str]); 3] = [
    (2, &["output too short", "output too long"]),
    (
        61,
        &[
            "no word",
            "too few for r",
            "too many for r",
            "1 + 2r wraps to the length",
            "r too large",
            "kind of the first node",
            "kind of a later node",
            "there are no action formulas",
            "a node inside an action formula",
            "a node beyond the action formulas",
            "operand of sequence, a tree's first node",
            "operand of sequence, inside a tree",
            "operand of choice, a tree's first node",
            "operand of choice, inside a tree",
            "operand of star, a tree's first node",
            "operand of star, inside a tree",
            "operand of plus, a tree's first node",
            "operand of plus, inside a tree",
            "sequence without its left child",
            "sequence without its right child",
            "choice without its left child",
            "choice without its right child",
            "star without its child",
            "plus without its child",
        ],
    ),
    (62, &["one node too many", "more nodes", "nodes beyond 32 bits", "nodes beyond 64 bits"]),
];

/// Every kind of place by number, in the order of the refusals.
pub fn all() -> impl Iterator<Item = (u32, &'static str)> {
    let shared = |from: u32, to: u32| kinds::KINDS.iter().filter(move |(number, _)| (from..=to).contains(number));
    let [length, regulars, size] = &OWN;
    let groups = [length].into_iter().chain(shared(11, 13)).chain(shared(31, 34)).chain([regulars]);
    let groups = groups.chain(shared(41, 45)).chain([size]);
    groups.flat_map(|(number, kinds)| kinds.iter().map(|kind| (*number, *kind)))
}

/// The words that a refusal is about: its group, for 62 two of them, or the length of the lent slice.
pub fn about(call: &Call, number: u32) -> Vec<Vec<u32>> {
    match number {
        2 => vec![vec![call.out as u32]],
        _ => groups(number).iter().map(|&group| call.input.parts()[group].clone()).collect(),
    }
}

/// Are the words that a refusal is not about those of the base?
pub fn rest_is_base(call: &Call, number: u32) -> bool {
    let (parts, base) = (call.input.parts(), base());
    (0..4).filter(|group| !groups(number).contains(group)).all(|group| parts[group] == base.parts()[group])
}

/// The groups of words that a refusal is about, counted from 0.
fn groups(number: u32) -> &'static [usize] {
    match number {
        2 => &[],
        11..=13 => &[0],
        31..=34 => &[1],
        61 => &[2],
        62 => &[2, 3],
        _ => &[3],
    }
}

/// The kind of place of a refused call, in the words of `all`.
pub fn kind(call: &Call, number: u32, place: u32) -> String {
    let input = &call.input;
    match number {
        2 => format!("output too {}", if call.out < EXPANDED { "short" } else { "long" }),
        61 => malformed(input),
        62 => too_large(nodes(input)).to_string(),
        // Modalities name regular formulas as those of a run name action formulas.
        41..=45 => of_a_run(Input { actions: input.regulars.clone(), ..input.clone() }, number, place),
        _ => of_a_run(input.clone(), number, place),
    }
}

/// The same of a run with these words.
fn of_a_run(input: Input, number: u32, place: u32) -> String {
    kinds::kind(&call::Call::build(input.model(&[], &input.formula), 1, 1, 1), number, place)
}

const NAMES: [&str; 5] = ["action formula", "sequence", "choice", "star", "plus"];
const CHILDREN: [u32; 5] = [0, 2, 2, 1, 1];

/// What is wrong with regular formulas: their length, size, kinds, operands, or that the last is unfinished.
fn malformed(input: &Input) -> String {
    let words = &input.regulars;
    if words.first().is_none_or(|&r| words.len() as u64 != 1 + 2 * r as u64) {
        return length(words, 1, 1, &[(0, 2)], "r");
    }
    if words[0] > MOST {
        return "r too large".to_string();
    }
    let (kinds, operands) = words[1..].split_at(words[0] as usize);
    if let Some(node) = kinds.iter().position(|&kind| kind > 4) {
        return format!("kind of {}", if node == 0 { "the first node" } else { "a later node" });
    }
    let (depths, _) = open_nodes(kinds, &CHILDREN);
    let wrong = |&node: &usize| match kinds[node] {
        0 => !is_first(&input.actions, operands[node]),
        1 | 2 => right_child(kinds, node).is_some_and(|right| operands[node] as usize != right),
        _ => operands[node] != 0,
    };
    match (0..kinds.len()).find(wrong) {
        None => missing(&NAMES, kinds, &CHILDREN),
        Some(node) if kinds[node] == 0 => no_action_formula(input.actions[0], operands[node]).to_string(),
        Some(node) => {
            let place = if depths[node] == 0 { "a tree's first node" } else { "inside a tree" };
            format!("operand of {}, {place}", NAMES[kinds[node] as usize])
        }
    }
}

fn no_action_formula(actions: u32, operand: u32) -> &'static str {
    match actions {
        0 => "there are no action formulas",
        _ if operand < actions => "a node inside an action formula",
        _ => "a node beyond the action formulas",
    }
}

/// Whether a node is the first of an action formula.
fn is_first(actions: &[u32], node: u32) -> bool {
    const ACTION_CHILDREN: [u32; 6] = [0, 0, 0, 2, 2, 1];
    let kinds = &actions[1..1 + actions[0] as usize];
    open_nodes(kinds, &ACTION_CHILDREN).0.get(node as usize) == Some(&0)
}

/// The node just past the left child, unless that is unfinished.
fn right_child(kinds: &[u32], node: usize) -> Option<usize> {
    let left = node + 1;
    (left + 1..=kinds.len()).find(|&end| open_nodes(&kinds[left..end], &CHILDREN).1.is_none())
}

fn too_large(nodes: Option<u64>) -> &'static str {
    match nodes {
        Some(1_025) => "one node too many",
        Some(nodes) if nodes < 1 << 32 => "more nodes",
        Some(_) => "nodes beyond 32 bits",
        None => "nodes beyond 64 bits",
    }
}

/// How many nodes the expanded formula would have, as far as 64 bits count.
fn nodes(input: &Input) -> Option<u64> {
    let Input { actions, regulars, formula, .. } = input;
    let (actions, formula) = (actions.clone(), formula.clone());
    expanded_nodes(&Formulas { actions, regulars: Some(regulars.clone()), formula })
}
