//! What a call answers, and its refusals in words.
use crate::game::game_words;
use std::fmt;

#[derive(Clone, Copy, Debug, PartialEq, Eq)]
pub enum Answer {
    /// The whole game. A game that was restricted or read counts its vertices as steps; of what is no game, a text or
    /// an expanded formula, the bytes or words are the steps.
    Done {
        steps: u32,
        vertices: u32,
        edges: u32,
    },
    /// The step limit came first: the game shows waiting vertices with owner 2.
    Cut {
        steps: u32,
        vertices: u32,
        edges: u32,
    },
    Refused(Refusal),
}

impl Answer {
    /// From the four words that a call writes.
    pub fn of_words(words: [u32; 4]) -> Answer {
        let [case, first, second, third] = words;
        match case {
            0 => Answer::Done { steps: first, vertices: second, edges: third },
            1 => Answer::Cut { steps: first, vertices: second, edges: third },
            _ => Answer::Refused(Refusal { number: first, place: second }),
        }
    }

    /// How many words the game has, if there is one.
    pub fn game_words(&self) -> Option<usize> {
        match *self {
            Answer::Done { vertices, edges, .. } | Answer::Cut { vertices, edges, .. } => {
                Some(game_words(vertices as usize, edges as usize))
            }
            Answer::Refused(_) => None,
        }
    }
}

impl fmt::Display for Answer {
    fn fmt(&self, f: &mut fmt::Formatter) -> fmt::Result {
        match self {
            Answer::Done { steps, vertices, edges } => write!(f, "done {steps} {vertices} {edges}"),
            Answer::Cut { steps, vertices, edges } => write!(f, "cut {steps} {vertices} {edges}"),
            Answer::Refused(refusal) => write!(f, "refused {} {}", refusal.number, refusal.place),
        }
    }
}

/// Who can mend what was refused.
#[derive(Clone, Copy, Debug, PartialEq, Eq)]
pub enum Party {
    Host,
    Modeller,
    FormulaWriter,
    GameSupplier,
    TextSupplier,
}

impl fmt::Display for Party {
    fn fmt(&self, f: &mut fmt::Formatter) -> fmt::Result {
        f.write_str(match self {
            Party::Host => "the host program",
            Party::Modeller => "the modeller",
            Party::FormulaWriter => "the formula's writer",
            Party::GameSupplier => "whoever hands over the game",
            Party::TextSupplier => "whoever hands over the text",
        })
    }
}

#[derive(Clone, Copy, Debug, PartialEq, Eq)]
pub struct Refusal {
    pub number: u32,
    pub place: u32,
}

impl Refusal {
    pub fn what(&self) -> &'static str {
        match self.number {
            1 => "the room is out of range: 1 to 1,048,576 vertices and 1 to 4,194,304 edges",
            2 => "a lent slice has the wrong length",
            11 => "the label words are fewer than 2, or not 2 + 2A",
            12 => "more than 4,096 labels or more than 16,384 actions",
            13 => "a label number is not below L, or smaller than the one before it",
            21 => "the system words are fewer than 3, or not 3 + S + 2T",
            22 => "the states are not 1 to 65,535, or the transitions more than 262,144",
            23 => "the initial state is not below S",
            24 => "the out-degrees don't sum to T",
            25 => "a transition's label is not below L",
            26 => "a transition's target is not below S",
            31 => "there are no action words, or they are not 1 + 2m",
            32 => "more than 1,024 action nodes",
            33 => "the kind of an action node is above 5",
            34 => "the operand of an action node is wrong, or the last action tree is unfinished",
            41 => "there are no formula words, or they are not 1 + 2n",
            42 => "the formula's nodes are not 1 to 1,024",
            43 => "the kind of a formula node is above 8",
            44 => "the operand of a formula node is wrong, the tree is unfinished, or nodes are left over",
            45 => "a reference doesn't name an enclosing fixpoint",
            51 => "the words are no game: fewer than 3, not 4 + 5n + 2m, no vertex, or a size above the room limits",
            52 => "the offsets don't begin at 0, fall, or don't end at the number of edges",
            53 => "an owner is above 1, or a target or the initial vertex is not below n",
            60 => "the game needs more vertices or edges than there is room for",
            61 => "the regular formulas are no table of at most 1,024 nodes: its words, a kind, an operand or a tree",
            62 => "the expanded formula has more than 1,024 nodes",
            91 => "the text is not of the form: a header, then a line for each vertex",
            92 => "a vertex is missing, given twice or, also as a successor, above the highest",
            93 => "more vertices or edges than there is room for, or a priority beyond 32 bits",
            98 => "a vertex has no successors, and cannot be written as PGSolver text",
            _ => "an unknown refusal",
        }
    }

    /// Where it was found, for the numbers whose place says so.
    pub fn place_in_words(&self) -> Option<String> {
        let place = self.place;
        match self.number {
            13 => Some(format!("word {place} of the labels")),
            23..=26 => Some(format!("word {place} of the system")),
            33 | 34 => Some(format!("node {place} of the action formulas")),
            43..=45 => Some(format!("node {place} of the formula")),
            52 | 53 => Some(format!("word {place} of the game")),
            _ => None,
        }
    }

    pub fn who(&self) -> Party {
        match self.number {
            11..=26 => Party::Modeller,
            31..=45 | 61 | 62 => Party::FormulaWriter,
            51..=53 | 98 => Party::GameSupplier,
            91..=93 => Party::TextSupplier,
            _ => Party::Host,
        }
    }
}

impl fmt::Display for Refusal {
    fn fmt(&self, f: &mut fmt::Formatter) -> fmt::Result {
        write!(f, "refused {} {}: {}", self.number, self.place, self.what())?;
        if let Some(place) = self.place_in_words() {
            write!(f, " ({place})")?;
        }
        write!(f, "; to be mended by {}", self.who())
    }
}

impl std::error::Error for Refusal {}
