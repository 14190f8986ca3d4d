//! Inputs: every small formula, and random models and games with repeated subtrees, action trees and transitions.
use crate::Model;

/// The same numbers for the same seed.
pub struct Random(u64);

impl Random {
    pub fn new(seed: u64) -> Random {
        Random(seed.wrapping_mul(0x9E37_79B9_7F4A_7C15) ^ 0x2545_F491_4F6C_DD1D)
    }

    pub fn word(&mut self) -> u64 {
        self.0 = self.0.wrapping_add(0x9E37_79B9_7F4A_7C15);
        let mixed = (self.0 ^ self.0 >> 30).wrapping_mul(0xBF58_476D_1CE4_E5B9);
        let mixed = (mixed ^ mixed >> 27).wrapping_mul(0x94D0_49BB_1331_11EB);
        mixed ^ mixed >> 31
    }

    pub fn below(&mut self, n: usize) -> usize {
        (self.word() % n as u64) as usize
    }

    /// From `low` to `high`, both included.
    pub fn within(&mut self, low: usize, high: usize) -> usize {
        low + self.below(high - low + 1)
    }

    pub fn chance(&mut self, percent: usize) -> bool {
        self.below(100) < percent
    }

    pub fn pick<T: Copy>(&mut self, of: &[T]) -> T {
        of[self.below(of.len())]
    }
}

/// A table from kinds and operands.
pub fn table(nodes: &[(u32, u32)]) -> Vec<u32> {
    let mut words = vec![nodes.len() as u32];
    words.extend(nodes.iter().map(|node| node.0));
    words.extend(nodes.iter().map(|node| node.1));
    words
}

/// Every table of up to so many nodes, valid or not, with kinds and operands below these numbers.
pub fn all_tables(most: u32, kinds: u32, operands: u32) -> impl Iterator<Item = Vec<u32>> {
    let each = kinds * operands;
    let of = move |size: u32, code: u32| {
        let node = |i: u32| (code / u32::pow(each, i) % each / operands, code / u32::pow(each, i) % operands);
        table(&(0..size).map(node).collect::<Vec<_>>())
    };
    (1..=most).flat_map(move |size| (0..u32::pow(each, size)).map(move |code| of(size, code)))
}

/// Every formula table of this many nodes whose modalities name one of the roots.
pub fn all_formulas(size: usize, roots: &[u32]) -> Vec<Vec<u32>> {
    all_trees(size, 0, &[], roots).iter().map(|nodes| table(nodes)).collect()
}

fn all_trees(size: usize, at: u32, enclosing: &[u32], roots: &[u32]) -> Vec<Vec<(u32, u32)>> {
    if size == 1 {
        let leaves = [(0, 0), (1, 0)].into_iter().chain(enclosing.iter().map(|&outer| (8, outer)));
        return leaves.map(|leaf| vec![leaf]).collect();
    }
    let mut trees = Vec::new();
    let mut under = |node: (u32, u32), rest: &[(u32, u32)]| trees.push([&[node], rest].concat());
    for body in all_trees(size - 1, at + 1, &[enclosing, &[at]].concat(), roots) {
        [6, 7].iter().for_each(|&kind| under((kind, 0), &body));
    }
    for body in all_trees(size - 1, at + 1, enclosing, roots) {
        for &root in roots {
            [4, 5].iter().for_each(|&kind| under((kind, root), &body));
        }
    }
    for left in 1..size - 1 {
        let right = at + 1 + left as u32;
        let others = all_trees(size - 1 - left, right, enclosing, roots);
        for first in all_trees(left, at + 1, enclosing, roots) {
            for second in &others {
                let both = [&first[..], second].concat();
                [2, 3].iter().for_each(|&kind| under((kind, right), &both));
            }
        }
    }
    trees
}

/// What random models look like.
#[derive(Clone, Copy)]
pub struct Sizes {
    /// Most formula nodes (about) and most states.
    pub formula: usize,
    pub states: usize,
    /// Several labels list one multiset in different orders.
    pub permuted: bool,
}

pub fn random_model(random: &mut Random, sizes: Sizes) -> Model {
    let labels = if sizes.permuted { permuted_labels(random) } else { random_labels(random) };
    let count = random.pick(&[0, 1, 2, 3, 5]);
    let (actions, roots) = action_row(random, labels[0], count);
    let system = random_system(random, labels[0], sizes.states);
    let formula = random_formula(random, &roots, sizes.formula);
    Model { labels, system, actions, formula }
}

/// A formula whose value hangs on the order of its fixpoints: two to four of them, their kinds in turn, around
/// modalities and references to any of them, on a system with two labels and transitions enough to go round.
pub fn alternating_model(random: &mut Random) -> Model {
    let s = random.within(2, 6);
    let t = random.within(s, 3 * s);
    let system = system_of(random, 2, s, t);
    let (first, count, size) = (random.below(2), random.within(2, 4), random.within(5, 12));
    // Action trees for label 0, for label 1 and for both.
    let roots = [0, 1, 2];
    let weights = (1, 3, 4, 97, 0);
    let mut formulas = Formulas { random, roots: &roots, weights, made: Vec::new(), names: 0 };
    let tree = formulas.alternating(&[6, 7, 6, 7, 6][first..][..count], &[], size);
    let mut nodes = Vec::new();
    flatten(&tree, &mut nodes, &mut Vec::new());
    let actions = table(&[(2, 0), (2, 1), (0, 0)]);
    Model { labels: vec![2, 2, 0, 1, 7, 8], system, actions, formula: table(&nodes) }
}

pub(super) fn random_labels(random: &mut Random) -> Vec<u32> {
    let l = random.pick(&[0, 1, 1, 2, 2, 3, 4, 6, 9]);
    let a = if l == 0 { 0 } else { random.within(0, 3 * l) };
    let mut numbers: Vec<u32> = (0..a).map(|_| random.below(l) as u32).collect();
    numbers.sort_unstable();
    let pools: [&[u32]; 4] = [&[7], &[1, 2], &[1, 2, 3], &[0, u32::MAX, 10, 9, 100]];
    let pool = random.pick(&pools);
    let actions = (0..a).map(|_| random.pick(pool)).collect();
    [vec![l as u32, a as u32], numbers, actions].concat()
}

fn permuted_labels(random: &mut Random) -> Vec<u32> {
    let (l, size) = (random.within(2, 5), random.within(2, 3));
    let common: Vec<u32> = (0..size).map(|_| random.pick(&[1, 2, 3])).collect();
    let mut words = vec![l as u32, (l * size) as u32];
    words.extend((0..l * size).map(|at| (at / size) as u32));
    for _ in 0..l {
        let mut rest = common.clone();
        while !rest.is_empty() {
            words.push(rest.swap_remove(random.below(rest.len())));
        }
    }
    words
}

pub fn random_system(random: &mut Random, labels: u32, most: usize) -> Vec<u32> {
    let many = most >= 100;
    let some = random.within(1, most);
    let s = if many { random.within(most / 4, most) } else { random.pick(&[1, 1, 2, 3, some]) };
    let other = random.within(0, 4 * s);
    let t = if many { 4 * s } else { random.pick(&[0, s, 2 * s, other]) };
    system_of(random, labels, s, if labels == 0 { 0 } else { t })
}

fn system_of(random: &mut Random, labels: u32, s: usize, t: usize) -> Vec<u32> {
    let mut degrees = vec![0; s];
    (0..t).for_each(|_| degrees[random.below(s)] += 1);
    // A few targets are met again and again, so that a modality merges transitions.
    let few = [random.below(s) as u32, random.below(s) as u32];
    let numbers: Vec<u32> = (0..t).map(|_| random.below(labels as usize) as u32).collect();
    let target = |random: &mut Random| if random.chance(30) { random.pick(&few) } else { random.below(s) as u32 };
    let targets: Vec<u32> = (0..t).map(|_| target(random)).collect();
    [vec![s as u32, t as u32, random.below(s) as u32], degrees, numbers, targets].concat()
}

fn action_tree(random: &mut Random, nodes: &mut Vec<(u32, u32)>, labels: u32, size: usize) {
    if size <= 1 {
        let kind = if labels > 0 && random.chance(75) { 2 } else { random.below(2) as u32 };
        nodes.push((kind, if kind == 2 { random.below(labels as usize) as u32 } else { 0 }));
    } else if size == 2 || random.chance(25) {
        nodes.push((5, 0));
        action_tree(random, nodes, labels, size - 1);
    } else {
        let (at, left) = (nodes.len(), random.within(1, size - 2));
        nodes.push((random.pick(&[3, 4]), 0));
        action_tree(random, nodes, labels, left);
        nodes[at].1 = nodes.len() as u32;
        action_tree(random, nodes, labels, size - 1 - left);
    }
}

/// The row and the first nodes of its trees; some trees stand there twice.
pub(super) fn action_row(random: &mut Random, labels: u32, trees: usize) -> (Vec<u32>, Vec<u32>) {
    let (mut nodes, mut roots): (Vec<(u32, u32)>, Vec<usize>) = (Vec::new(), Vec::new());
    for _ in 0..trees {
        let first = nodes.len();
        if !roots.is_empty() && random.chance(40) {
            let at = random.below(roots.len());
            let (start, end) = (roots[at], roots.get(at + 1).copied().unwrap_or(first));
            let moved = |&(kind, operand): &(u32, u32)| match kind {
                3 | 4 => (kind, operand + (first - start) as u32),
                _ => (kind, operand),
            };
            let again: Vec<_> = nodes[start..end].iter().map(moved).collect();
            nodes.extend(again);
        } else {
            let size = random.within(1, 9);
            let size = random.pick(&[1, 1, 1, 2, 3, size]);
            action_tree(random, &mut nodes, labels, size);
        }
        roots.push(first);
    }
    (table(&nodes), roots.iter().map(|&root| root as u32).collect())
}

/// A formula before it has node numbers: fixpoints and references carry a name.
#[derive(Clone)]
struct Tree {
    kind: u32,
    /// A modality's action tree, or a name.
    operand: u32,
    children: Vec<Tree>,
}

/// Shares of fixpoints, modalities and binary nodes; percentage of leaves that refer, of trees that repeat an
/// earlier one.
type Weights = (usize, usize, usize, usize, usize);

const WEIGHTS: [Weights; 7] = [
    (1, 1, 1, 80, 10),
    (3, 1, 1, 90, 0),
    (1, 3, 1, 80, 20),
    (1, 1, 3, 50, 30),
    (4, 0, 2, 95, 0),
    (0, 1, 1, 0, 30),
    (0, 2, 3, 0, 50),
];

struct Formulas<'a> {
    random: &'a mut Random,
    roots: &'a [u32],
    weights: Weights,
    made: Vec<Tree>,
    names: u32,
}

/// About as many nodes as `most` at most, and never more than 1,024.
pub(super) fn random_formula(random: &mut Random, roots: &[u32], most: usize) -> Vec<u32> {
    loop {
        let size = random.within(1, most);
        let weights = random.pick(&WEIGHTS);
        let mut formulas = Formulas { random: &mut *random, roots, weights, made: Vec::new(), names: 0 };
        let tree = formulas.tree(&[], size);
        let mut nodes = Vec::new();
        flatten(&tree, &mut nodes, &mut Vec::new());
        if nodes.len() <= 1_024 {
            return table(&nodes);
        }
    }
}

impl Formulas<'_> {
    fn tree(&mut self, enclosing: &[u32], size: usize) -> Tree {
        if !self.made.is_empty() && self.random.chance(self.weights.4) {
            let tree = self.made[self.random.below(self.made.len())].clone();
            if free(&tree, &mut Vec::new()).iter().all(|name| enclosing.contains(name)) {
                return self.again(&tree, &mut Vec::new());
            }
        }
        if size <= 1 {
            return self.leaf(enclosing);
        }
        let tree = self.inner(enclosing, size);
        if self.made.len() < 50 {
            self.made.push(tree.clone());
        }
        tree
    }

    fn leaf(&mut self, enclosing: &[u32]) -> Tree {
        let refers = !enclosing.is_empty() && self.random.chance(self.weights.3);
        let (kind, operand) = if refers {
            let any = self.random.pick(enclosing);
            (8, self.random.pick(&[any, enclosing[0], enclosing[enclosing.len() - 1]]))
        } else {
            (self.random.below(2) as u32, 0)
        };
        Tree { kind, operand, children: Vec::new() }
    }

    fn inner(&mut self, enclosing: &[u32], size: usize) -> Tree {
        let (fixpoints, modalities, binaries, ..) = self.weights;
        let modalities = if self.roots.is_empty() { 0 } else { modalities };
        let binaries = if size > 2 { binaries } else { 0 };
        let share = self.random.below((fixpoints + modalities + binaries).max(1));
        if share < modalities {
            let (kind, operand) = (self.random.pick(&[4, 5]), self.random.pick(self.roots));
            Tree { kind, operand, children: vec![self.tree(enclosing, size - 1)] }
        } else if share < modalities + binaries {
            let some = self.random.within(1, size - 2);
            let left = self.random.pick(&[1, size - 2, some]);
            let children = vec![self.tree(enclosing, left), self.tree(enclosing, size - 1 - left)];
            Tree { kind: self.random.pick(&[2, 3]), operand: 0, children }
        } else {
            let name = self.name();
            let inside = [enclosing, &[name]].concat();
            Tree { kind: self.random.pick(&[6, 7]), operand: name, children: vec![self.tree(&inside, size - 1)] }
        }
    }

    /// Fixpoints of these kinds, one in another, around a tree.
    fn alternating(&mut self, kinds: &[u32], enclosing: &[u32], size: usize) -> Tree {
        let Some((&kind, rest)) = kinds.split_first() else { return self.inner(enclosing, size) };
        let name = self.name();
        let inside = [enclosing, &[name]].concat();
        Tree { kind, operand: name, children: vec![self.alternating(rest, &inside, size)] }
    }

    fn name(&mut self) -> u32 {
        self.names += 1;
        self.names
    }

    /// The same tree with new names for its fixpoints, and sometimes another action tree.
    fn again(&mut self, tree: &Tree, renamed: &mut Vec<(u32, u32)>) -> Tree {
        let before = renamed.len();
        let operand = match tree.kind {
            4 | 5 if self.random.chance(50) => self.random.pick(self.roots),
            6 | 7 => {
                renamed.push((tree.operand, self.name()));
                renamed[before].1
            }
            8 => renamed.iter().rfind(|pair| pair.0 == tree.operand).map_or(tree.operand, |pair| pair.1),
            _ => tree.operand,
        };
        let children = tree.children.iter().map(|child| self.again(child, renamed)).collect();
        renamed.truncate(before);
        Tree { kind: tree.kind, operand, children }
    }
}

/// The names referred to and not bound inside.
fn free(tree: &Tree, bound: &mut Vec<u32>) -> Vec<u32> {
    if tree.kind == 8 {
        return if bound.contains(&tree.operand) { vec![] } else { vec![tree.operand] };
    }
    let before = bound.len();
    if matches!(tree.kind, 6 | 7) {
        bound.push(tree.operand);
    }
    let names = tree.children.iter().flat_map(|child| free(child, bound)).collect();
    bound.truncate(before);
    names
}

/// Gives the nodes their numbers; `places` holds the nodes of the names.
fn flatten(tree: &Tree, nodes: &mut Vec<(u32, u32)>, places: &mut Vec<(u32, u32)>) {
    let at = nodes.len();
    let operand = match tree.kind {
        4 | 5 => tree.operand,
        8 => places.iter().rfind(|place| place.0 == tree.operand).map_or(0, |place| place.1),
        _ => 0,
    };
    nodes.push((tree.kind, operand));
    if matches!(tree.kind, 6 | 7) {
        places.push((tree.operand, at as u32));
    }
    for (i, child) in tree.children.iter().enumerate() {
        if i == 1 {
            nodes[at].1 = nodes.len() as u32;
        }
        flatten(child, nodes, places);
    }
}

/// A game for the restriction; it may have vertices without edges, repeated edges, any initial vertex, and any states,
/// items and counts.
pub fn random_game(random: &mut Random, most: usize) -> Vec<u32> {
    let some = random.within(1, most);
    let n = random.pick(&[1, 2, 3, some]);
    let degrees: Vec<usize> = (0..n).map(|_| random.pick(&[0, 1, 1, 2, 3])).collect();
    let m: usize = degrees.iter().sum();
    let top = random.pick(&[1, 3, 300, u32::MAX as usize]);
    let any = random.below(n) as u32;
    let mut words = vec![n as u32, m as u32, random.pick(&[0, any])];
    words.extend((0..n).map(|_| random.below(2) as u32));
    words.extend((0..n).map(|_| random.within(0, top) as u32));
    words.extend((0..2 * n).map(|_| any_word(random)));
    let mut offset = 0;
    words.push(0);
    words.extend(degrees.iter().map(|&degree| {
        offset += degree as u32;
        offset
    }));
    words.extend((0..m).map(|_| random.below(n) as u32));
    words.extend((0..m).map(|_| any_word(random)));
    words
}

/// A state, an item or a count: no number is wrong.
pub fn any_word(random: &mut Random) -> u32 {
    let any = random.word() as u32;
    random.pick(&[0, 1, 2, any, u32::MAX])
}
