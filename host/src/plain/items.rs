//! What a run needs to know of labels, action trees and the formula, worked out once.
use super::NONE;
use std::collections::HashMap;

/// Kinds 0 to 5 and 8 as in the formula table; 6 and 7 are the equations. `left` and `right` are the items
/// of the operands; a modality has its operand's item in `left` and its action tree in `right`.
#[derive(Clone, Copy, Default)]
pub struct Item {
    pub kind: u32,
    pub left: u32,
    pub right: u32,
    pub priority: u32,
}

pub struct Compiled {
    /// Equations first.
    pub items: Vec<Item>,
    /// For each node of the action table the set of labels it matches, `row` words of bits each.
    sets: Vec<u64>,
    row: usize,
}

impl Compiled {
    /// The labels that an action tree matches.
    pub fn set(&self, tree: u32) -> &[u64] {
        &self.sets[tree as usize * self.row..][..self.row]
    }
}

pub fn compile(labels: &[u32], actions: &[u32], formula: &[u32], ends: &[u32]) -> Compiled {
    let class = label_classes(labels);
    let (row, sets) = match_sets(actions, &class);
    let formula = Formula::new(formula, ends);
    let nodes = formula.alike(&alike_actions(actions, &class));
    Compiled { items: formula.items(&nodes), sets, row }
}

/// For each label the lowest one with the same multiset of actions.
fn label_classes(words: &[u32]) -> Vec<u32> {
    let (l, a) = (words[0] as usize, words[1] as usize);
    let (numbers, names) = words[2..].split_at(a);
    let mut sorted = names.to_vec();
    let mut first = HashMap::new();
    let mut stretches = Vec::with_capacity(l);
    let mut from = 0;
    for label in 0..l as u32 {
        let to = from + numbers[from..].iter().take_while(|&&number| number == label).count();
        sorted[from..to].sort_unstable();
        stretches.push(from..to);
        from = to;
    }
    stretches.into_iter().enumerate().map(|(label, at)| *first.entry(&sorted[at]).or_insert(label as u32)).collect()
}

/// For each label the next one of the same class, `NONE` past the last.
fn next_alike(class: &[u32]) -> Vec<u32> {
    let mut next = vec![NONE; class.len()];
    let mut first: Vec<u32> = next.clone();
    for label in (0..class.len()).rev() {
        let of_class = &mut first[class[label] as usize];
        next[label] = *of_class;
        *of_class = label as u32;
    }
    next
}

/// The labels that each action node matches, as bits: children stand past their parent, so the sets are made
/// from the last node to the first, 64 labels at a time.
fn match_sets(words: &[u32], class: &[u32]) -> (usize, Vec<u64>) {
    let m = words[0] as usize;
    let (kinds, operands) = words[1..].split_at(m);
    let row = class.len().div_ceil(64);
    let mut sets = vec![0u64; m * row];
    let next = next_alike(class);
    for node in (0..m).rev() {
        let (upto, after) = sets.split_at_mut((node + 1) * row);
        let set = &mut upto[node * row..];
        let child = |node: usize, at: usize| after[(node - 1) * row + at];
        let right = (operands[node] as usize).wrapping_sub(node);
        match kinds[node] {
            0 => set.fill(u64::MAX),
            1 => {}
            2 => {
                let mut label = class[operands[node] as usize] as usize;
                while label < class.len() {
                    set[label / 64] |= 1 << (label % 64);
                    label = next[label] as usize;
                }
            }
            3 => (0..row).for_each(|at| set[at] = child(1, at) | child(right, at)),
            4 => (0..row).for_each(|at| set[at] = child(1, at) & child(right, at)),
            _ => (0..row).for_each(|at| set[at] = !child(1, at)),
        }
    }
    (row, sets)
}

/// Numbers for what is alike: equal triples get one number.
#[derive(Default)]
struct Alike(HashMap<(u32, u32, u32), u32>);

impl Alike {
    fn number(&mut self, kind: u32, a: u32, b: u32) -> u32 {
        let next = self.0.len() as u32;
        *self.0.entry((kind, a, b)).or_insert(next)
    }
}

/// For each action node a number that it shares with exactly the nodes whose trees are alike.
fn alike_actions(words: &[u32], class: &[u32]) -> Vec<u32> {
    let m = words[0] as usize;
    let (kinds, operands) = words[1..].split_at(m);
    let mut alike = Alike::default();
    let mut numbers = vec![0; m];
    for node in (0..m).rev() {
        let (a, b) = match kinds[node] {
            2 => (class[operands[node] as usize], 0),
            3 | 4 => (numbers[node + 1], numbers[operands[node] as usize]),
            5 => (numbers[node + 1], 0),
            _ => (0, 0),
        };
        numbers[node] = alike.number(kinds[node], a, b);
    }
    numbers
}

struct Formula<'a> {
    kinds: &'a [u32],
    operands: &'a [u32],
    ends: &'a [u32],
    /// The nodes of the equations in order; `NONE` first if there is a placeholder.
    equations: Vec<u32>,
    /// The equation of each fixpoint node.
    equation: Vec<u32>,
}

impl<'a> Formula<'a> {
    fn new(words: &'a [u32], ends: &'a [u32]) -> Self {
        let (kinds, operands) = words[1..].split_at(words[0] as usize);
        let fixpoint = |kind: u32| matches!(kind, 6 | 7);
        let mut equations = if fixpoint(kinds[0]) { vec![] } else { vec![NONE] };
        let mut equation = vec![NONE; kinds.len()];
        for node in (0..kinds.len()).filter(|&node| fixpoint(kinds[node])) {
            equation[node] = equations.len() as u32;
            equations.push(node as u32);
        }
        Formula { kinds, operands, ends, equations, equation }
    }

    fn is_greatest(&self, equation: usize) -> bool {
        self.equations[equation] != NONE && self.kinds[self.equations[equation] as usize] == 7
    }

    /// The equation that a node stands for in a body: its own if it is an inner fixpoint, or the one it refers to.
    fn referred(&self, node: usize) -> Option<u32> {
        match self.kinds[node] {
            6 | 7 => Some(self.equation[node]),
            8 => Some(self.equation[self.operands[node] as usize]),
            _ => None,
        }
    }

    /// For each node a number that it shares with exactly the nodes alike in their bodies.
    fn alike(&self, actions: &[u32]) -> Vec<u32> {
        let mut alike = Alike::default();
        let mut numbers = vec![0; self.kinds.len()];
        for node in (0..self.kinds.len()).rev() {
            numbers[node] = match (self.kinds[node], self.referred(node)) {
                (_, Some(equation)) => alike.number(8, equation, 0),
                (kind @ (2 | 3), _) => alike.number(kind, numbers[node + 1], numbers[self.operands[node] as usize]),
                (kind @ (4 | 5), _) => alike.number(kind, actions[self.operands[node] as usize], numbers[node + 1]),
                (kind, _) => alike.number(kind, 0, 0),
            };
        }
        numbers
    }

    /// Equations, then the distinct subformulas by the lowest node that carries them in a body.
    fn items(&self, alike: &[u32]) -> Vec<Item> {
        // Node 0 stands in no body if it is a fixpoint.
        let first_node = usize::from(self.equation[0] != NONE);
        let mut item_of = vec![NONE; alike.len()];
        let mut carriers = Vec::new();
        for node in first_node..alike.len() {
            let item = &mut item_of[alike[node] as usize];
            if *item == NONE {
                *item = (self.equations.len() + carriers.len()) as u32;
                carriers.push(node);
            }
        }
        let item = |node: u32| item_of[alike[node as usize] as usize];
        let mut items = self.equation_items(item);
        items.extend(carriers.into_iter().map(|node| self.subformula_item(node, item)));
        items
    }

    fn equation_items(&self, item: impl Fn(u32) -> u32) -> Vec<Item> {
        let depths = self.depths();
        let equation = |(equation, &node): (usize, &u32)| {
            let greatest = self.is_greatest(equation);
            let body = if node == NONE { 0 } else { node + 1 };
            let priority = depths[equation] / 2 * 2 + u32::from(!greatest);
            Item { kind: 6 + u32::from(greatest), left: item(body), right: 0, priority }
        };
        self.equations.iter().enumerate().map(equation).collect()
    }

    fn subformula_item(&self, node: usize, item: impl Fn(u32) -> u32) -> Item {
        let (kind, operand, next) = (self.kinds[node], self.operands[node], node as u32 + 1);
        let (kind, left, right) = match (kind, self.referred(node)) {
            (_, Some(equation)) => (8, equation, 0),
            (2 | 3, _) => (kind, item(next), item(operand)),
            (4 | 5, _) => (kind, item(next), operand),
            _ => (kind, 0, 0),
        };
        Item { kind, left, right, priority: 0 }
    }

    /// The depth of each equation: its reading for itself.
    fn depths(&self) -> Vec<u32> {
        let bodies = self.bodies();
        let mut reading = vec![0; self.equations.len()];
        (0..self.equations.len())
            .map(|target| {
                let node = self.equations[target];
                let end = if node == NONE { self.kinds.len() } else { self.ends[node as usize] as usize };
                // From a body only inner fixpoints lead to later equations, so the readings needed are those of the
                // equations inside this one; an inner one's is complete when its own node is met from behind.
                reading[target..].fill(0);
                for &(node, body, referred) in bodies.iter().rev() {
                    if node >= end || (body as usize) < target {
                        continue;
                    }
                    let found = match referred as usize {
                        own if own == target => 1,
                        later if later > body as usize => {
                            reading[later] + u32::from(self.is_greatest(later) != self.is_greatest(body as usize))
                        }
                        _ => 0,
                    };
                    reading[body as usize] = found.max(reading[body as usize]);
                }
                reading[target]
            })
            .collect()
    }

    /// The references of all bodies in table order: node, equation of the body it stands in, equation it names.
    fn bodies(&self) -> Vec<(usize, u32, u32)> {
        let mut open: Vec<(u32, u32)> = Vec::new();
        let mut references = Vec::new();
        for node in 0..self.kinds.len() {
            while open.last().is_some_and(|&(_, end)| end <= node as u32) {
                open.pop();
            }
            let fixpoint = self.equation[node];
            if let Some(referred) = self.referred(node)
                && !(node == 0 && fixpoint != NONE)
            {
                // Outside all fixpoints stands the placeholder's body.
                references.push((node, open.last().map_or(0, |&(equation, _)| equation), referred));
            }
            if fixpoint != NONE {
                open.push((fixpoint, self.ends[node]));
            }
        }
        references
    }
}
