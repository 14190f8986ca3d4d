//! The tables of action formulas, regular formulas and the formula, by node: what the messages and the readable text
//! need. Any words may be looked at, also refused ones: what is not there counts as 0.

/// Names of the kinds of nodes and how many children each has.
pub struct Kinds {
    pub names: &'static [&'static str],
    pub children: &'static [usize],
}

pub const ACTIONS: Kinds = Kinds {
    names: &["true", "false", "multi-action", "union", "intersection", "negation"],
    children: &[0, 0, 0, 2, 2, 1],
};

pub const REGULARS: Kinds =
    Kinds { names: &["action formula", "sequence", "choice", "star", "plus"], children: &[0, 2, 2, 1, 1] };

pub const FORMULA: Kinds = Kinds {
    names: &["true", "false", "and", "or", "box", "diamond", "least fixpoint", "greatest fixpoint", "reference"],
    children: &[0, 0, 2, 2, 1, 1, 1, 1, 0],
};

/// A table: the number of nodes, their kinds, their operands.
#[derive(Clone, Copy)]
pub struct Nodes<'a> {
    words: &'a [u32],
    kinds: &'static Kinds,
}

/// The word at a place, 0 past the end.
pub fn at(words: &[u32], place: usize) -> u32 {
    words.get(place).copied().unwrap_or(0)
}

impl<'a> Nodes<'a> {
    pub fn of_actions(words: &'a [u32]) -> Nodes<'a> {
        Nodes { words, kinds: &ACTIONS }
    }

    pub fn of_regulars(words: &'a [u32]) -> Nodes<'a> {
        Nodes { words, kinds: &REGULARS }
    }

    pub fn of_formula(words: &'a [u32]) -> Nodes<'a> {
        Nodes { words, kinds: &FORMULA }
    }

    pub fn count(&self) -> usize {
        (at(self.words, 0) as usize).min(self.words.len())
    }

    pub fn kind(&self, node: usize) -> u32 {
        at(self.words, 1 + node)
    }

    pub fn operand(&self, node: usize) -> usize {
        at(self.words, 1 + self.count() + node) as usize
    }

    pub fn name(&self, node: usize) -> &'static str {
        self.kinds.names.get(self.kind(node) as usize).unwrap_or(&"unknown kind")
    }

    /// A kind that is none counts as a leaf.
    pub fn children(&self, node: usize) -> usize {
        self.kinds.children.get(self.kind(node) as usize).copied().unwrap_or(0)
    }

    /// The node past the tree that begins at `node`, or how many nodes it lacks.
    pub fn end(&self, node: usize) -> Result<usize, usize> {
        let (mut lacking, mut next) = (1, node);
        while lacking > 0 && next < self.count() {
            lacking += self.children(next);
            lacking -= 1;
            next += 1;
        }
        if lacking == 0 { Ok(next) } else { Err(lacking) }
    }

    /// Where the trees of a row begin, the last one perhaps unfinished.
    pub fn first_nodes(&self) -> Vec<usize> {
        let mut first = Vec::new();
        let mut next = 0;
        while next < self.count() {
            first.push(next);
            next = self.end(next).unwrap_or(self.count());
        }
        first
    }
}
