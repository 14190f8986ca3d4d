//! The kinds of place at which refusals arise, and which kind a refused call shows.
use super::call::{Call, PLAIN, perform};
use super::places::base;
use crate::{Layout, Model, game_words};

/// Every kind of place by number.
pub const KINDS: [(u32, &[&str]); 24] = [
    (1, &["V is 0", "V is too large", "E is 0", "E is too large"]),
    (
        2,
        &[
            "game slice too short",
            "game slice too long",
            "work slice too short",
            "work slice too long",
            "output too short",
            "output too long",
            "map too short",
            "map too long",
            "the restriction's work too short",
            "the restriction's work too long",
        ],
    ),
    (11, &["no word", "one word", "too few for A", "too many for A", "2 + 2A wraps to the length"]),
    (12, &["L too large", "A too large"]),
    (13, &["first number is L or more", "later number is L or more", "second number falls", "later number falls"]),
    (
        21,
        &[
            "no word",
            "one word",
            "two words",
            "too few for S and T",
            "too many for S and T",
            "3 + S + 2T wraps to the length",
        ],
    ),
    (22, &["S is 0", "S too large", "T too large"]),
    (23, &["initial state is S or more"]),
    (24, &["degrees sum to less", "degrees sum to more", "the sum wraps to T"]),
    (25, &["first transition", "later transition", "there are no labels"]),
    (26, &["first transition", "later transition"]),
    (31, &["no word", "too few for m", "too many for m", "1 + 2m wraps to the length"]),
    (32, &["m too large"]),
    (33, &["first node", "later node"]),
    (
        34,
        &[
            "operand of true, a tree's first node",
            "operand of true, inside a tree",
            "operand of false, a tree's first node",
            "operand of false, inside a tree",
            "operand of multi-action, a tree's first node",
            "operand of multi-action, inside a tree",
            "operand of union, a tree's first node",
            "operand of union, inside a tree",
            "operand of intersection, a tree's first node",
            "operand of intersection, inside a tree",
            "operand of negation, a tree's first node",
            "operand of negation, inside a tree",
            "negation without its child",
            "union without its left child",
            "union without its right child",
            "intersection without its left child",
            "intersection without its right child",
        ],
    ),
    (41, &["no word", "too few for n", "too many for n", "1 + 2n wraps to the length"]),
    (42, &["n is 0", "n too large"]),
    (43, &["first node", "later node", "left-over node"]),
    (
        44,
        &[
            "operand of true, node 0",
            "operand of true, later node",
            "operand of false, node 0",
            "operand of false, later node",
            "operand of and, node 0",
            "operand of and, later node",
            "operand of or, node 0",
            "operand of or, later node",
            "operand of box, node 0",
            "operand of box, later node",
            "operand of diamond, node 0",
            "operand of diamond, later node",
            "operand of least, node 0",
            "operand of least, later node",
            "operand of greatest, node 0",
            "operand of greatest, later node",
            "box names a node inside a tree",
            "diamond names a node inside a tree",
            "box without any action tree",
            "diamond without any action tree",
            "and without its left child",
            "and without its right child",
            "or without its left child",
            "or without its right child",
            "box without its child",
            "diamond without its child",
            "least without its child",
            "greatest without its child",
            "nodes left over",
        ],
    ),
    (
        45,
        &[
            "itself",
            "a later node",
            "beyond the table",
            "an enclosing node that is no fixpoint",
            "a node beside that is no fixpoint",
            "a fixpoint beside",
        ],
    ),
    (
        51,
        &[
            "no word",
            "one word",
            "two words",
            "too few for n and m",
            "too many for n and m",
            "4 + 5n + 2m wraps to the length",
            "no vertex",
            "n too large",
            "m too large",
        ],
    ),
    (
        52,
        &[
            "first offset is not 0",
            "a middle offset falls",
            "the last offset falls",
            "the last is below m",
            "the last is above m",
        ],
    ),
    (
        53,
        &[
            "initial vertex",
            "owner of vertex 0",
            "owner of a later vertex",
            "target of edge 0",
            "target of a later edge",
        ],
    ),
    (
        60,
        &[
            "vertices in step 1",
            "vertices in a later step",
            "vertices in step k of a run that would be cut",
            "an edge",
            "an edge in step k of a run that would be cut",
            "an added self-loop",
            "an added self-loop in step k of a run that would be cut",
            "vertices and edges in one step",
        ],
    ),
];

/// Kinds that need more words than a record has.
pub const NOT_IN_RECORDS: [(u32, &str); 7] = [
    (12, "A too large"),
    (22, "S too large"),
    (22, "T too large"),
    (32, "m too large"),
    (42, "n too large"),
    (51, "n too large"),
    (51, "m too large"),
];

const ACTION_KINDS: [&str; 6] = ["true", "false", "multi-action", "union", "intersection", "negation"];
const FORMULA_KINDS: [&str; 9] = ["true", "false", "and", "or", "box", "diamond", "least", "greatest", "reference"];

/// The words that a refusal is about: of its group, or of the game.
pub fn about(call: &Call, number: u32) -> Vec<u32> {
    match call {
        Call::Build { model, vertices, edges, limit, game, work } => match number {
            1 => vec![*vertices, *edges],
            2 => vec![*game as u32, *work as u32],
            60 => [&[*vertices, *edges, *limit], &model.formula[..]].concat(),
            _ => model.parts()[number as usize / 10 - 1].clone(),
        },
        Call::Restrict { game, out, map, work } => match number {
            2 => [*out, *map, *work].map(|n| n as u32).to_vec(),
            _ => game.clone(),
        },
    }
}

/// Are the words that a refusal is not about those of the base?
pub fn rest_is_base(call: &Call, number: u32) -> bool {
    let Call::Build { model, .. } = call else { return true };
    let group = if number == 60 { 3 } else { (number as usize / 10).wrapping_sub(1) };
    (0..4).filter(|&other| other != group).all(|other| model.parts()[other] == base().parts()[other])
}

/// The kind of place of a refused call, in the words of `KINDS`.
pub fn kind(call: &Call, number: u32, place: u32) -> String {
    let at = place as usize;
    let words = about(call, number);
    match (call, number) {
        (_, 1) => room(words[0], words[1]),
        (Call::Build { vertices, edges, .. }, 2) => {
            let (v, e) = (*vertices as usize, *edges as usize);
            lent(&["game slice", "work slice"], &words, &[game_words(v, e), 8 * v + 2 * e])
        }
        (Call::Restrict { game, .. }, 2) => {
            let n = game[0] as usize;
            lent(&["output", "map", "the restriction's work"], &words, &[game.len(), n, n])
        }
        (_, 11) => length(&words, 2, 2, &[(1, 2)], "A"),
        (_, 21) => length(&words, 3, 3, &[(0, 1), (1, 2)], "S and T"),
        (_, 31) => length(&words, 1, 1, &[(0, 2)], "m"),
        (_, 41) => length(&words, 1, 1, &[(0, 2)], "n"),
        (_, 51) if words.len() >= 3 && total(&words, 4, &[(0, 5), (1, 2)]) == words.len() as u64 => {
            size(number, &words)
        }
        (_, 51) => length(&words, 3, 4, &[(0, 5), (1, 2)], "n and m"),
        (_, 12 | 22 | 32 | 42) => size(number, &words),
        (_, 13) => label_number(&words, at),
        (_, 23) => "initial state is S or more".to_string(),
        (_, 24) => degrees(&words),
        (Call::Build { model, .. }, 25) if model.labels[0] == 0 => "there are no labels".to_string(),
        (_, 25) => later(at == 3 + words[0] as usize, "transition"),
        (_, 26) => later(at == 3 + words[0] as usize + words[1] as usize, "transition"),
        (_, 33) => later(at == 0, "node"),
        (_, 34) => action_node(&words, at),
        (Call::Build { model, .. }, 43..=45) => formula_node(model, number, at),
        (_, 52) => offset(&words, at),
        (_, 53) => game_word(&words, at),
        (Call::Build { .. }, 60) => step(call),
        _ => "an unknown refusal".to_string(),
    }
}

/// Which of a group's sizes is out of range.
fn size(number: u32, words: &[u32]) -> String {
    match (number, words[0]) {
        (12, 4_097..) => "L too large",
        (12, _) => "A too large",
        (22, 0) => "S is 0",
        (22, 65_536..) => "S too large",
        (22, _) => "T too large",
        (42, 0) => "n is 0",
        (51, 0) => "no vertex",
        (51, ..=1_048_576) | (32, _) => "m too large",
        _ => "n too large",
    }
    .to_string()
}

fn later(first: bool, what: &str) -> String {
    format!("{} {what}", if first { "first" } else { "later" })
}

pub fn room(v: u32, e: u32) -> String {
    let said = |name: &str, size: u32| format!("{name} is {}", if size == 0 { "0" } else { "too large" });
    if v == 0 || v > 1 << 20 { said("V", v) } else { said("E", e) }
}

fn lent(names: &[&str], lengths: &[u32], right: &[usize]) -> String {
    let wrong = (0..names.len()).find(|&i| lengths[i] as usize != right[i]).unwrap_or(0);
    format!("{} too {}", names[wrong], if (lengths[wrong] as usize) < right[wrong] { "short" } else { "long" })
}

/// `head` and each word times its factor.
fn total(words: &[u32], head: u64, sizes: &[(usize, u64)]) -> u64 {
    head + sizes.iter().map(|&(at, factor)| factor * words[at] as u64).sum::<u64>()
}

pub(super) fn length(words: &[u32], least: usize, head: u64, sizes: &[(usize, u64)], of: &str) -> String {
    let found = words.len();
    if found < least {
        return ["no word", "one word", "two words"][found].to_string();
    }
    let right = total(words, head, sizes);
    if right as u32 as usize == found {
        let sum = ["2 + 2A", "3 + S + 2T", "1 + 2m", "1 + 2n", "1 + 2r", "4 + 5n + 2m"];
        let at = ["A", "S and T", "m", "n", "r", "n and m"].iter().position(|name| *name == of).unwrap_or(0);
        return format!("{} wraps to the length", sum[at]);
    }
    format!("too {} for {of}", if (found as u64) < right { "few" } else { "many" })
}

fn label_number(words: &[u32], at: usize) -> String {
    if words[at] >= words[0] {
        return format!("{} is L or more", later(at == 2, "number"));
    }
    format!("{} number falls", if at == 3 { "second" } else { "later" })
}

fn degrees(words: &[u32]) -> String {
    let degrees = &words[3..3 + words[0] as usize];
    let sum: u64 = degrees.iter().map(|&degree| degree as u64).sum();
    if sum as u32 == words[1] {
        return "the sum wraps to T".to_string();
    }
    format!("degrees sum to {}", if sum < words[1] as u64 { "less" } else { "more" })
}

/// Goes through a table of trees with so many children by kind: for each node the depth at which it stands, and which
/// node waits for which child (counted from 0) at the end, if one does.
pub(super) fn open_nodes(kinds: &[u32], children: &[u32]) -> (Vec<usize>, Option<(usize, u32)>) {
    let (mut depths, mut open): (Vec<usize>, Vec<(usize, u32)>) = (Vec::new(), Vec::new());
    for node in 0..kinds.len() {
        depths.push(open.len());
        open.push((node, 0));
        // A node whose children are all there is closed, and is a child of the one around it.
        while let Some(&(last, had)) = open.last()
            && had == children[kinds[last] as usize]
        {
            open.pop();
            if let Some(outer) = open.last_mut() {
                outer.1 += 1;
            }
        }
    }
    (depths, open.last().copied())
}

pub(super) fn missing(names: &[&str], kinds: &[u32], children: &[u32]) -> String {
    let Some((node, had)) = open_nodes(kinds, children).1 else { return "nothing is missing".to_string() };
    let name = names[kinds[node] as usize];
    match (children[kinds[node] as usize], had) {
        (2, 0) => format!("{name} without its left child"),
        (2, _) => format!("{name} without its right child"),
        _ => format!("{name} without its child"),
    }
}

const ACTION_CHILDREN: [u32; 6] = [0, 0, 0, 2, 2, 1];
const FORMULA_CHILDREN: [u32; 9] = [0, 0, 2, 2, 1, 1, 1, 1, 0];

fn action_node(words: &[u32], node: usize) -> String {
    let m = words[0] as usize;
    let kinds = &words[1..1 + m];
    if node == m {
        return missing(&ACTION_KINDS, kinds, &ACTION_CHILDREN);
    }
    let first = open_nodes(kinds, &ACTION_CHILDREN).0[node] == 0;
    let place = if first { "a tree's first node" } else { "inside a tree" };
    format!("operand of {}, {place}", ACTION_KINDS[kinds[node] as usize])
}

fn formula_node(model: &Model, number: u32, node: usize) -> String {
    let n = model.formula[0] as usize;
    let (kinds, operands) = model.formula[1..].split_at(n);
    // Kinds above 8 stand for leaves here.
    let leaves: Vec<u32> = kinds.iter().map(|&kind| kind.min(8)).collect();
    let depths = open_nodes(&leaves, &FORMULA_CHILDREN).0;
    let end = (1..n).find(|&at| depths[at] == 0).unwrap_or(n);
    match number {
        43 if node >= end => "left-over node".to_string(),
        43 => later(node == 0, "node"),
        44 if node == n => missing(&FORMULA_KINDS, kinds, &FORMULA_CHILDREN),
        44 if node == end => "nodes left over".to_string(),
        44 => formula_operand(model, node, kinds[node], operands[node]),
        _ => reference(kinds, operands[node] as usize, node),
    }
}

fn formula_operand(model: &Model, node: usize, kind: u32, operand: u32) -> String {
    let name = FORMULA_KINDS[kind as usize];
    let trees = model.actions[0];
    if matches!(kind, 4 | 5) && trees == 0 {
        return format!("{name} without any action tree");
    }
    if matches!(kind, 4 | 5) && operand < trees {
        return format!("{name} names a node inside a tree");
    }
    format!("operand of {name}, {}", if node == 0 { "node 0" } else { "later node" })
}

fn reference(kinds: &[u32], to: usize, node: usize) -> String {
    let fixpoint = |at: usize| matches!(kinds[at], 6 | 7);
    // The tree of `to` holds `node` if it is still open there.
    let around = |to: usize| (to + 1..=node).all(|at| open_nodes(&kinds[to..at], &FORMULA_CHILDREN).1.is_some());
    match to {
        _ if to == node => "itself",
        _ if to >= kinds.len() => "beyond the table",
        _ if to > node => "a later node",
        _ if !around(to) && fixpoint(to) => "a fixpoint beside",
        _ if !around(to) => "a node beside that is no fixpoint",
        _ => "an enclosing node that is no fixpoint",
    }
    .to_string()
}

fn offset(words: &[u32], at: usize) -> String {
    let offsets = Layout::of(words).offsets();
    match at {
        _ if at == offsets.start => "first offset is not 0",
        _ if at < offsets.end - 1 => "a middle offset falls",
        _ if words[at] < words[at - 1] => "the last offset falls",
        _ if words[at] < words[1] => "the last is below m",
        _ => "the last is above m",
    }
    .to_string()
}

fn game_word(words: &[u32], at: usize) -> String {
    let layout = Layout::of(words);
    match at {
        2 => "initial vertex",
        _ if at == layout.owners().start => "owner of vertex 0",
        _ if layout.owners().contains(&at) => "owner of a later vertex",
        _ if at == layout.targets().start => "target of edge 0",
        _ => "target of a later edge",
    }
    .to_string()
}

/// What the step that needs more room than there is needs it for: the same run with one step less is cut, and the
/// finished game shows the step's vertex.
fn step(call: &Call) -> String {
    let Call::Build { model, vertices, edges, limit, .. } = call else { return "no build".to_string() };
    let run = |k: u32| perform(&Call::build(model.clone(), 4_096, 16_384, k), PLAIN, 0);
    let over = |k: u32| {
        let [_, _, known, made] = run(k).answer;
        (known > *vertices, made > *edges)
    };
    let Some(k) = (1..=*limit).find(|&k| over(k) != (false, false)) else { return "none".to_string() };
    let after = run(k);
    let cut = k == *limit && after.answer[0] == 1;
    let (before, new) = (run(k - 1).game, &after.game);
    let owner = |game: &[u32], v: usize| game[Layout::of(game).owners()].get(v).copied().unwrap_or(2);
    let layout = Layout::of(new);
    let settled = (0..layout.vertices).find(|&v| owner(new, v) != 2 && owner(&before, v) == 2).unwrap_or(0);
    let looped = new[layout.targets()][layout.edges_of(new, settled).start] as usize == settled;
    let what = match over(k) {
        (true, true) => return "vertices and edges in one step".to_string(),
        (true, false) if k == 1 => return "vertices in step 1".to_string(),
        (true, false) if cut => "vertices",
        (true, false) => "vertices in a later step",
        _ if looped => "an added self-loop",
        _ => "an edge",
    };
    format!("{what}{}", if cut { " in step k of a run that would be cut" } else { "" })
}
