//! The refusals: a function for each group of words, its faults in the order of their numbers.
use super::{MOST_EDGES, MOST_NODES, MOST_VERTICES, NONE};
use crate::{Layout, game_words};

/// A refusal's number and place.
pub type Fault = (u32, u32);

pub fn unless(fine: bool, number: u32, place: usize) -> Result<(), Fault> {
    if fine { Ok(()) } else { Err((number, place as u32)) }
}

/// The first place of `range` at which `bad` holds is refused.
fn none_of(range: std::ops::Range<usize>, number: u32, mut bad: impl FnMut(usize) -> bool) -> Result<(), Fault> {
    range.into_iter().find(|&at| bad(at)).map_or(Ok(()), |at| Err((number, at as u32)))
}

pub fn sizes(vertices: u32, edges: u32) -> Result<(), Fault> {
    unless((1..=MOST_VERTICES).contains(&vertices) && (1..=MOST_EDGES).contains(&edges), 1, 0)
}

pub fn room(vertices: u32, edges: u32, game: usize, work: usize) -> Result<(), Fault> {
    sizes(vertices, edges)?;
    let (v, e) = (vertices as usize, edges as usize);
    unless(game == game_words(v, e) && work == 8 * v + 2 * e, 2, 0)
}

/// Of accepted words: for each node of the formula the one just past its tree.
pub fn model(labels: &[u32], system: &[u32], actions: &[u32], formula: &[u32]) -> Result<Vec<u32>, Fault> {
    check_labels(labels)?;
    check_system(system, labels[0])?;
    let action_ends = check_actions(actions, labels[0])?;
    check_formula(formula, &action_ends)
}

/// A formula over regular formulas, whose modalities name trees of `regulars`.
pub fn expansion(labels: &[u32], actions: &[u32], regulars: &[u32], formula: &[u32]) -> Result<(), Fault> {
    check_labels(labels)?;
    let action_ends = check_actions(actions, labels[0])?;
    // A table that is wrong in any way is one fault, without a place.
    let regular_ends = check_regulars(regulars, &action_ends).map_err(|_| (61, 0))?;
    check_formula(formula, &regular_ends).map(|_| ())
}

fn check_labels(words: &[u32]) -> Result<(), Fault> {
    // Sizes are compared as 64-bit numbers, so that no sum wraps.
    unless(words.len() >= 2 && words.len() as u64 == 2 + 2 * words[1] as u64, 11, 0)?;
    let (l, a) = (words[0], words[1] as usize);
    unless(l <= 4_096 && a <= 16_384, 12, 0)?;
    none_of(2..2 + a, 13, |at| words[at] >= l || at > 2 && words[at] < words[at - 1])
}

fn check_system(words: &[u32], labels: u32) -> Result<(), Fault> {
    unless(words.len() >= 3 && words.len() as u64 == 3 + words[0] as u64 + 2 * words[1] as u64, 21, 0)?;
    let (s, t) = (words[0] as usize, words[1] as usize);
    unless((1..=65_535).contains(&s) && t <= 262_144, 22, 0)?;
    unless((words[2] as usize) < s, 23, 2)?;
    let sum: u64 = words[3..3 + s].iter().map(|&degree| degree as u64).sum();
    unless(sum == t as u64, 24, 1)?;
    none_of(3 + s..3 + s + t, 25, |at| words[at] >= labels)?;
    none_of(3 + s + t..3 + s + 2 * t, 26, |at| words[at] as usize >= s)
}

/// For each node the one past its tree; `NONE` if the table ends first.
fn tree_ends(kinds: &[u32], children: impl Fn(u32) -> u32) -> Vec<u32> {
    let n = kinds.len();
    // One entry more: a tree that would begin at the table's end is unfinished.
    let mut ends = vec![NONE; n + 1];
    for node in (0..n).rev() {
        let mut end = node as u32 + 1;
        for _ in 0..children(kinds[node]) {
            end = if end == NONE { NONE } else { ends[end as usize] };
        }
        ends[node] = end;
    }
    ends
}

/// The operand of a node with two children is its right child. Where the left tree is unfinished there is
/// no such node, and the operand isn't judged.
fn wrong_right_child(ends: &[u32], node: usize, operand: u32) -> bool {
    let right = ends[node + 1];
    right != NONE && operand != right
}

fn check_actions(words: &[u32], labels: u32) -> Result<Vec<u32>, Fault> {
    unless(!words.is_empty() && words.len() as u64 == 1 + 2 * words[0] as u64, 31, 0)?;
    let m = words[0] as usize;
    unless(m <= MOST_NODES, 32, 0)?;
    let (kinds, operands) = words[1..].split_at(m);
    none_of(0..m, 33, |node| kinds[node] > 5)?;
    let ends = tree_ends(kinds, |kind| [0, 0, 0, 2, 2, 1][kind as usize]);
    none_of(0..m, 34, |node| match kinds[node] {
        2 => operands[node] >= labels,
        3 | 4 => wrong_right_child(&ends, node, operands[node]),
        _ => operands[node] != 0,
    })?;
    unless(finished(&ends), 34, m)?;
    Ok(ends)
}

fn check_regulars(words: &[u32], action_ends: &[u32]) -> Result<Vec<u32>, Fault> {
    unless(!words.is_empty() && words.len() as u64 == 1 + 2 * words[0] as u64, 61, 0)?;
    let r = words[0] as usize;
    unless(r <= MOST_NODES, 61, 0)?;
    let (kinds, operands) = words[1..].split_at(r);
    none_of(0..r, 61, |node| kinds[node] > 4)?;
    let ends = tree_ends(kinds, |kind| [0, 2, 2, 1, 1][kind as usize]);
    let root = roots(action_ends);
    none_of(0..r, 61, |node| match kinds[node] {
        0 => !is_root(&root, operands[node]),
        1 | 2 => wrong_right_child(&ends, node, operands[node]),
        _ => operands[node] != 0,
    })?;
    unless(finished(&ends), 61, 0)?;
    Ok(ends)
}

/// `row_ends` are the ends of the trees that modalities name.
fn check_formula(words: &[u32], row_ends: &[u32]) -> Result<Vec<u32>, Fault> {
    unless(!words.is_empty() && words.len() as u64 == 1 + 2 * words[0] as u64, 41, 0)?;
    let n = words[0] as usize;
    unless((1..=MOST_NODES).contains(&n), 42, 0)?;
    let (kinds, operands) = words[1..].split_at(n);
    none_of(0..n, 43, |node| kinds[node] > 8)?;
    let ends = tree_ends(kinds, |kind| [0, 0, 2, 2, 1, 1, 1, 1, 0][kind as usize]);
    let root = roots(row_ends);
    // Left-over nodes begin where the tree ends, so one search finds the smallest place of all.
    none_of(0..n, 44, |node| {
        node as u32 == ends[0]
            || match kinds[node] {
                2 | 3 => wrong_right_child(&ends, node, operands[node]),
                4 | 5 => !is_root(&root, operands[node]),
                8 => false,
                _ => operands[node] != 0,
            }
    })?;
    unless(ends[0] != NONE, 44, n)?;
    none_of(0..n, 45, |node| {
        let outer = operands[node] as usize;
        kinds[node] == 8 && !(outer < node && matches!(kinds[outer], 6 | 7) && node < ends[outer] as usize)
    })?;
    Ok(ends)
}

/// Which nodes of the row begin one of its trees.
fn roots(ends: &[u32]) -> Vec<bool> {
    let mut root = vec![false; ends.len() - 1];
    let mut node = 0;
    while node < root.len() {
        root[node] = true;
        node = ends[node] as usize;
    }
    root
}

fn is_root(root: &[bool], node: u32) -> bool {
    root.get(node as usize).copied().unwrap_or(false)
}

/// Whether the last tree of a row ends with it.
fn finished(ends: &[u32]) -> bool {
    let mut node = 0;
    while node < ends.len() - 1 && ends[node] != NONE {
        node = ends[node] as usize;
    }
    node == ends.len() - 1
}

pub fn game(words: &[u32]) -> Result<(), Fault> {
    unless(words.len() >= 3 && words.len() == Layout::of(words).words(), 51, 0)?;
    let (n, m, layout) = (words[0], words[1], Layout::of(words));
    unless((1..=MOST_VERTICES).contains(&n) && m <= MOST_EDGES, 51, 0)?;
    let offsets = layout.offsets();
    none_of(offsets.clone(), 52, |at| {
        let wrong_start = at == offsets.start && words[at] != 0;
        wrong_start || at > offsets.start && words[at] < words[at - 1] || at + 1 == offsets.end && words[at] != m
    })?;
    unless(words[2] < n, 53, 2)?;
    none_of(layout.owners(), 53, |at| words[at] > 1)?;
    none_of(layout.targets(), 53, |at| words[at] >= n)
}

/// The slices lent to the restriction.
pub fn lent(game: &[u32], out: usize, map: usize, work: usize) -> Result<(), Fault> {
    unless(out == game.len() && map == game[0] as usize && work == game[0] as usize, 2, 0)
}
