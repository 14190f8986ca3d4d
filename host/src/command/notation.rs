//! Formulas in the usual notation: `nu X0. [true]X0 && <a2>true`. An equation's variable is X with its number, an
//! action is `a` with its number, the actions of a label are joined by bars. In a regular formula, `(a1 + a2)* . a3+`,
//! a point is a sequence, `+` between two a choice, a star or a `+` behind something its repetition.
use crate::nodes::Nodes;
use crate::{Formulas, Model, Player};
use std::collections::HashMap;
use std::fmt::{self, Write};

/// A label of more actions is named by its number.
const MOST_ACTIONS: usize = 8;

/// How tightly something binds: an operand that binds less than its place asks for stands in brackets.
pub const LOOSE: u8 = 0;
const OR: u8 = 1;
const AND: u8 = 2;
const PREFIX: u8 = 3;

/// The same in regular formulas. What is repeated binds more: an action formula, in brackets if it has an operator.
const CHOICE: u8 = 1;
const SEQUENCE: u8 = 2;
const REPETITION: u8 = 3;

/// Accepted words, to be written as text.
pub struct Notation<'a> {
    labels: &'a [u32],
    actions: Nodes<'a>,
    /// What boxes and diamonds name, where it is not action formulas.
    regulars: Option<Nodes<'a>>,
    formula: Nodes<'a>,
    /// The number of the equation of each node that has one.
    equations: Vec<Option<usize>>,
}

/// A pair's item as the rules number them.
pub enum Item {
    /// Without a node: the placeholder before a formula that is no fixpoint.
    Equation(Option<usize>),
    Subformula(usize),
}

impl<'a> Notation<'a> {
    pub fn new(model: &'a Model) -> Notation<'a> {
        Notation::of(&model.labels, &model.actions, None, &model.formula)
    }

    /// Of formulas before their expansion; the variables are numbered in their formula alone.
    pub fn before(labels: &'a [u32], formulas: &'a Formulas) -> Notation<'a> {
        let Formulas { actions, regulars, formula } = formulas;
        Notation::of(labels, actions, regulars.as_ref().map(|words| Nodes::of_regulars(words)), formula)
    }

    fn of(labels: &'a [u32], actions: &'a [u32], regulars: Option<Nodes<'a>>, formula: &'a [u32]) -> Notation<'a> {
        let (actions, formula) = (Nodes::of_actions(actions), Nodes::of_formula(formula));
        let mut next = usize::from(!is_fixpoint(formula.kind(0)));
        let mut number = |node: usize| {
            let found = is_fixpoint(formula.kind(node)).then_some(next);
            next += found.map_or(0, |_| 1);
            found
        };
        let equations = (0..formula.count()).map(&mut number).collect();
        Notation { labels, actions, regulars, formula, equations }
    }

    /// How many nodes the formula has.
    pub fn nodes(&self) -> usize {
        self.formula.count()
    }

    /// The whole formula.
    pub fn formula(&self, out: &mut dyn Write) -> fmt::Result {
        self.state(out, 0, LOOSE, false)
    }

    /// An item as its equation or its body says it, inner fixpoints by their variables.
    pub fn item(&self, out: &mut dyn Write, item: &Item) -> fmt::Result {
        match *item {
            Item::Equation(None) => {
                out.write_str("mu X0 = ")?;
                self.state(out, 0, LOOSE, true)?;
                out.write_str("  (placeholder: the formula is no fixpoint)")
            }
            Item::Equation(Some(node)) => {
                write!(out, "{} {} = ", self.operator(node), self.variable(node))?;
                self.state(out, node + 1, LOOSE, true)
            }
            Item::Subformula(node) => self.state(out, node, LOOSE, true),
        }
    }

    fn operator(&self, node: usize) -> &'static str {
        if self.formula.kind(node) == 6 { "mu" } else { "nu" }
    }

    fn variable(&self, node: usize) -> String {
        format!("X{}", self.equation(node))
    }

    fn equation(&self, node: usize) -> usize {
        self.equations.get(node).copied().flatten().unwrap_or(0)
    }

    /// A state formula; `in_body` names fixpoints instead of writing them out.
    fn state(&self, out: &mut dyn Write, node: usize, place: u8, in_body: bool) -> fmt::Result {
        let (kind, operand) = (self.formula.kind(node), self.formula.operand(node));
        match kind {
            0 | 1 => out.write_str(self.formula.name(node)),
            2 | 3 => {
                let (sign, binds) = if kind == 2 { (" && ", AND) } else { (" || ", OR) };
                bracketed(out, binds < place, |out| {
                    self.state(out, node + 1, binds + 1, in_body)?;
                    out.write_str(sign)?;
                    self.state(out, operand, binds + 1, in_body)
                })
            }
            4 | 5 => {
                let [open, close] = if kind == 4 { ["[", "]"] } else { ["<", ">"] };
                out.write_str(open)?;
                match self.regulars {
                    Some(_) => self.regular(out, operand, LOOSE)?,
                    None => self.action(out, operand, LOOSE)?,
                }
                out.write_str(close)?;
                self.state(out, node + 1, PREFIX, in_body)
            }
            6 | 7 if !in_body => bracketed(out, LOOSE < place, |out| {
                write!(out, "{} {}. ", self.operator(node), self.variable(node))?;
                self.state(out, node + 1, LOOSE, in_body)
            }),
            6 | 7 => out.write_str(&self.variable(node)),
            _ => out.write_str(&self.variable(operand)),
        }
    }

    /// Where the trees of the row of regular formulas begin.
    pub fn regulars(&self) -> Vec<usize> {
        self.regulars.map_or(Vec::new(), |regulars| regulars.first_nodes())
    }

    /// A regular formula; without any nothing is written.
    pub fn regular(&self, out: &mut dyn Write, node: usize, place: u8) -> fmt::Result {
        let Some(regulars) = self.regulars else { return Ok(()) };
        let (kind, operand) = (regulars.kind(node), regulars.operand(node));
        let (sign, binds) = match kind {
            0 => return self.action_in_regular(out, operand, place),
            1 => (" . ", SEQUENCE),
            2 => (" + ", CHOICE),
            3 => ("*", REPETITION),
            _ => ("+", REPETITION),
        };
        bracketed(out, binds < place, |out| {
            self.regular(out, node + 1, binds + 1)?;
            out.write_str(sign)?;
            if binds < REPETITION { self.regular(out, operand, binds + 1) } else { Ok(()) }
        })
    }

    /// Alone it stands as in a formula without regular formulas.
    fn action_in_regular(&self, out: &mut dyn Write, node: usize, place: u8) -> fmt::Result {
        let joined = match self.actions.kind(node) {
            2 => (2..=MOST_ACTIONS).contains(&self.multiset(self.actions.operand(node)).len()),
            kind => kind > 2,
        };
        bracketed(out, joined && place > LOOSE, |out| self.action(out, node, LOOSE))
    }

    fn action(&self, out: &mut dyn Write, node: usize, place: u8) -> fmt::Result {
        let (kind, operand) = (self.actions.kind(node), self.actions.operand(node));
        match kind {
            0 | 1 => out.write_str(self.actions.name(node)),
            2 => self.label(out, operand),
            3 | 4 => {
                let (sign, binds) = if kind == 4 { (" && ", AND) } else { (" || ", OR) };
                bracketed(out, binds < place, |out| {
                    self.action(out, node + 1, binds + 1)?;
                    out.write_str(sign)?;
                    self.action(out, operand, binds + 1)
                })
            }
            _ => {
                out.write_str("!")?;
                self.action(out, node + 1, PREFIX)
            }
        }
    }

    /// The actions of a label in rising order.
    fn multiset(&self, label: usize) -> Vec<u32> {
        let (numbers, actions) = self.labels[2..].split_at((self.labels.len() - 2) / 2);
        let from = numbers.partition_point(|&number| (number as usize) < label);
        let to = numbers.partition_point(|&number| number as usize <= label);
        let mut multiset = actions[from..to].to_vec();
        multiset.sort_unstable();
        multiset
    }

    /// A label by its actions or, where these are many, by its number.
    pub fn label(&self, out: &mut dyn Write, label: usize) -> fmt::Result {
        match self.multiset(label).len() {
            0..=MOST_ACTIONS => self.label_in_full(out, label),
            _ => write!(out, "label{label}"),
        }
    }

    pub fn label_in_full(&self, out: &mut dyn Write, label: usize) -> fmt::Result {
        let actions = self.multiset(label);
        if actions.is_empty() {
            return out.write_str("tau");
        }
        let mut bar = "";
        for action in actions {
            write!(out, "{bar}a{action}")?;
            bar = "|";
        }
        Ok(())
    }

    /// Whose the vertices of an item are: of whoever has to choose or is stuck there; where nothing is to be chosen,
    /// Odd's, but Even's at a greatest fixpoint.
    pub fn owner(&self, item: &Item) -> Player {
        match *item {
            Item::Equation(Some(node)) if self.formula.kind(node) == 7 => Player::Even,
            Item::Subformula(node) if matches!(self.formula.kind(node), 1 | 3 | 5) => Player::Even,
            _ => Player::Odd,
        }
    }

    /// A transition, as it leaves its state.
    pub fn transition(&self, out: &mut dyn Write, source: usize, label: usize, target: u32) -> fmt::Result {
        write!(out, "{source} -")?;
        self.label(out, label)?;
        write!(out, "-> {target}")
    }

    /// The items in order: equations, then subformulas by the lowest node that carries them, alike ones once.
    pub fn items(&self) -> Vec<Item> {
        let fixpoints = (0..self.formula.count()).filter(|&node| self.equations[node].is_some());
        let placeholder = (!is_fixpoint(self.formula.kind(0))).then_some(None);
        let equations = placeholder.into_iter().chain(fixpoints.map(Some)).map(Item::Equation);
        let classes = self.classes();
        let mut seen = std::collections::HashSet::new();
        let first = usize::from(is_fixpoint(self.formula.kind(0)));
        let new = (first..self.formula.count()).filter(|&node| seen.insert(classes[node]));
        equations.chain(new.map(Item::Subformula)).collect()
    }

    /// A number for each node, equal for alike trees: children come later, so the last node is first.
    fn classes(&self) -> Vec<usize> {
        let of_actions = self.action_classes();
        let mut known = HashMap::new();
        let mut classes = vec![0; self.formula.count()];
        for node in (0..classes.len()).rev() {
            let (kind, operand) = (self.formula.kind(node), self.formula.operand(node));
            let key = match kind {
                0 | 1 => (kind, 0, 0),
                2 | 3 => (kind, classes[node + 1], classes[operand]),
                4 | 5 => (kind, of_actions[operand], classes[node + 1]),
                6 | 7 => (8, self.equation(node), 0),
                _ => (8, self.equation(operand), 0),
            };
            let fresh = known.len();
            classes[node] = *known.entry(key).or_insert(fresh);
        }
        classes
    }

    fn action_classes(&self) -> Vec<usize> {
        let (mut known, mut multisets) = (HashMap::new(), HashMap::new());
        let mut classes = vec![0; self.actions.count()];
        for node in (0..classes.len()).rev() {
            let (kind, operand) = (self.actions.kind(node), self.actions.operand(node));
            let key = match kind {
                0 | 1 => (kind, 0, 0),
                2 => {
                    let fresh = multisets.len();
                    (kind, *multisets.entry(self.multiset(operand)).or_insert(fresh), 0)
                }
                3 | 4 => (kind, classes[node + 1], classes[operand]),
                _ => (kind, classes[node + 1], 0),
            };
            let fresh = known.len();
            classes[node] = *known.entry(key).or_insert(fresh);
        }
        classes
    }
}

fn is_fixpoint(kind: u32) -> bool {
    matches!(kind, 6 | 7)
}

fn bracketed(out: &mut dyn Write, needed: bool, inside: impl FnOnce(&mut dyn Write) -> fmt::Result) -> fmt::Result {
    if !needed {
        return inside(out);
    }
    out.write_str("(")?;
    inside(out)?;
    out.write_str(")")
}
