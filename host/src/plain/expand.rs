//! Regular formulas in modalities, expanded: the size of the result is counted, its tree is made part by part from the
//! inside, a modality's by recursion, and is then written as a table from the left.
//!
//! Fixpoints have names, so that a tree that is made can stand anywhere: those of the formula their nodes, each new one
//! a number that no other has. What stands in both parts of a choice is one tree with two parents, and is written
//! twice.
use super::MOST_NODES;
use super::checks::{self, Fault, unless};

/// Gives the number of words written.
pub fn expand(
    labels: &[u32],
    actions: &[u32],
    regulars: &[u32],
    formula: &[u32],
    out: &mut [u32],
) -> Result<usize, Fault> {
    unless(out.len() == 1 + 2 * MOST_NODES, 2, 0)?;
    checks::expansion(labels, actions, regulars, formula)?;
    let (regulars, formula) = (Table::of(regulars), Table::of(formula));
    let size = formula_size(&regulars, &formula).ok_or((62, 0))?;
    let mut trees = Trees { made: Vec::with_capacity(size), names: formula.kinds.len() };
    let root = trees.formula(&regulars, &formula);
    out.fill(0);
    out[0] = size as u32;
    let (kinds, operands) = out[1..=2 * size].split_at_mut(size);
    let mut writer = Writer { trees: &trees.made, kinds, operands, written: 0, places: vec![0; trees.names] };
    writer.write(root);
    Ok(1 + 2 * size)
}

/// Kinds and operands of words that are accepted.
struct Table<'a> {
    kinds: &'a [u32],
    operands: &'a [u32],
}

impl<'a> Table<'a> {
    fn of(words: &'a [u32]) -> Table<'a> {
        let (kinds, operands) = words[1..].split_at(words[0] as usize);
        Table { kinds, operands }
    }

    fn node(&self, node: usize) -> (u32, usize) {
        (self.kinds[node], self.operands[node] as usize)
    }
}

// ---- sizes, `None` for more than the most nodes: what a large part stands in is large, too, and no part is counted
// any more

fn within(size: usize) -> Option<usize> {
    (size <= MOST_NODES).then_some(size)
}

/// The nodes of an expanded formula. Children stand past their parents, so there are always some parts that are counted
/// and stand in no other one that is: all of them are in the formula.
fn formula_size(regulars: &Table, formula: &Table) -> Option<usize> {
    let mut sizes = vec![0; formula.kinds.len()];
    let mut all = 0;
    for node in (0..sizes.len()).rev() {
        let next = node + 1;
        let (size, inner) = match formula.node(node) {
            (2 | 3, right) => (1 + sizes[next] + sizes[right], sizes[next] + sizes[right]),
            (4 | 5, regular) => (modal_size(regulars, regular, sizes[next])?, sizes[next]),
            (6 | 7, _) => (1 + sizes[next], sizes[next]),
            _ => (1, 0),
        };
        sizes[node] = size;
        all = within(all - inner + size)?;
    }
    Some(all)
}

/// The nodes of an expanded modality around so many.
fn modal_size(regulars: &Table, node: usize, around: usize) -> Option<usize> {
    let left = |around| modal_size(regulars, node + 1, around);
    match regulars.node(node) {
        (0, _) => within(1 + around),
        (1, right) => left(modal_size(regulars, right, around)?),
        (2, right) => within(1 + left(around)? + modal_size(regulars, right, around)?),
        (3, _) => within(2 + left(1)? + around),
        _ => left(within(2 + left(1)? + around)?),
    }
}

// ---- trees

/// Kinds as in the formula table; trees by their numbers among those made.
#[derive(Clone, Copy)]
enum Tree {
    Leaf(u32),
    Two(u32, usize, usize),
    Modality(u32, u32, usize),
    Fixpoint(u32, usize, usize),
    Reference(usize),
}

/// Trees that have been made, and how many names have been given.
struct Trees {
    made: Vec<Tree>,
    names: usize,
}

impl Trees {
    fn add(&mut self, tree: Tree) -> usize {
        self.made.push(tree);
        self.made.len() - 1
    }

    /// The expanded formula.
    fn formula(&mut self, regulars: &Table, formula: &Table) -> usize {
        let mut trees = vec![0; formula.kinds.len()];
        for node in (0..trees.len()).rev() {
            let next = node + 1;
            trees[node] = match formula.node(node) {
                (kind @ (2 | 3), right) => self.add(Tree::Two(kind, trees[next], trees[right])),
                (kind @ (4 | 5), regular) => self.modal(regulars, regular, kind, trees[next]),
                (kind @ (6 | 7), _) => self.add(Tree::Fixpoint(kind, node, trees[next])),
                (8, name) => self.add(Tree::Reference(name)),
                (kind, _) => self.add(Tree::Leaf(kind)),
            };
        }
        trees[0]
    }

    /// A box or diamond, which is its kind, of a regular formula and a tree.
    fn modal(&mut self, regulars: &Table, node: usize, modality: u32, after: usize) -> usize {
        // And of boxes, or of diamonds.
        let both = modality - 2;
        match regulars.node(node) {
            (0, action) => self.add(Tree::Modality(modality, action as u32, after)),
            (1, right) => {
                let rest = self.modal(regulars, right, modality, after);
                self.modal(regulars, node + 1, modality, rest)
            }
            (2, right) => {
                let left = self.modal(regulars, node + 1, modality, after);
                let right = self.modal(regulars, right, modality, after);
                self.add(Tree::Two(both, left, right))
            }
            (3, _) => self.star(regulars, node + 1, modality, after),
            _ => {
                let rest = self.star(regulars, node + 1, modality, after);
                self.modal(regulars, node + 1, modality, rest)
            }
        }
    }

    /// Greatest I, box I and the tree; or least I, diamond I or the tree.
    fn star(&mut self, regulars: &Table, node: usize, modality: u32, after: usize) -> usize {
        let name = self.names;
        self.names += 1;
        let again = self.add(Tree::Reference(name));
        let pass = self.modal(regulars, node, modality, again);
        let body = self.add(Tree::Two(modality - 2, pass, after));
        self.add(Tree::Fixpoint(11 - modality, name, body))
    }
}

// ---- words

/// Writes a tree node by node from the left.
struct Writer<'a> {
    trees: &'a [Tree],
    kinds: &'a mut [u32],
    operands: &'a mut [u32],
    written: usize,
    /// The node of each name where it was written last: around what is being written.
    places: Vec<u32>,
}

impl Writer<'_> {
    fn write(&mut self, tree: usize) {
        let node = self.written;
        self.written += 1;
        let (kind, operand) = match self.trees[tree] {
            Tree::Leaf(kind) => (kind, 0),
            Tree::Two(kind, left, right) => {
                self.write(left);
                let place = self.written as u32;
                self.write(right);
                (kind, place)
            }
            Tree::Modality(kind, action, after) => {
                self.write(after);
                (kind, action)
            }
            Tree::Fixpoint(kind, name, body) => {
                self.places[name] = node as u32;
                self.write(body);
                (kind, 0)
            }
            Tree::Reference(name) => (8, self.places[name]),
        };
        (self.kinds[node], self.operands[node]) = (kind, operand);
    }
}
