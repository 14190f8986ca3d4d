//! What a formula means on a model: the states that satisfy it, straight from the words.
//!
//! A least fixpoint is iterated from no state, a greatest one from all states, each anew for every set that a fixpoint
//! around it has on its way. There are no equations, items, priorities or games here: this is a second way to a
//! verdict, to hold the games against. Its time may grow with the power of the nesting, so it is for small models.
use crate::Model;

/// Whether the initial state satisfies the formula. The model must be one that is accepted.
pub fn holds(model: &Model) -> bool {
    satisfying(model)[model.system[2] as usize]
}

/// For each state whether it satisfies the formula. The model must be one that is accepted.
pub fn satisfying(model: &Model) -> Vec<bool> {
    let moves = (0..model.formula[0] as usize).map(|node| moves(model, node)).collect();
    satisfying_by(&model.formula, model.system[0] as usize, moves)
}

/// The same by source and target of all that each modality of a formula speaks of.
pub(super) fn satisfying_by(formula: &[u32], states: usize, moves: Vec<Vec<(usize, usize)>>) -> Vec<bool> {
    let nodes = formula[0] as usize;
    let (kinds, operands) = formula[1..].split_at(nodes);
    Meaning { kinds, operands, states, moves, sets: vec![Vec::new(); nodes] }.of(0)
}

struct Meaning<'a> {
    kinds: &'a [u32],
    operands: &'a [u32],
    states: usize,
    /// For each modality source and target of the transitions that match.
    moves: Vec<Vec<(usize, usize)>>,
    /// For each fixpoint that is being iterated its present set.
    sets: Vec<Vec<bool>>,
}

impl Meaning<'_> {
    fn of(&mut self, node: usize) -> Vec<bool> {
        let operand = self.operands[node] as usize;
        match self.kinds[node] {
            0 => vec![true; self.states],
            1 => vec![false; self.states],
            2 | 3 => self.both_or_either(node, operand),
            4 | 5 => self.after(node),
            6 => self.iterated(node, vec![false; self.states]),
            7 => self.iterated(node, vec![true; self.states]),
            _ => self.sets[operand].clone(),
        }
    }

    fn both_or_either(&mut self, node: usize, right: usize) -> Vec<bool> {
        let (left, right) = (self.of(node + 1), self.of(right));
        let both = self.kinds[node] == 2;
        left.into_iter().zip(right).map(|(one, other)| if both { one && other } else { one || other }).collect()
    }

    /// A box asks for the operand after all matching transitions, a diamond after some one.
    fn after(&mut self, node: usize) -> Vec<bool> {
        let operand = self.of(node + 1);
        let diamond = self.kinds[node] == 5;
        let mut states = vec![!diamond; self.states];
        for &(source, target) in &self.moves[node] {
            if operand[target] == diamond {
                states[source] = diamond;
            }
        }
        states
    }

    /// Bodies are monotone, so from no state the sets only grow and from all states they only shrink.
    fn iterated(&mut self, node: usize, start: Vec<bool>) -> Vec<bool> {
        let mut set = start;
        for _ in 0..=self.states {
            self.sets[node] = set;
            set = self.of(node + 1);
            if set == self.sets[node] {
                return set;
            }
        }
        panic!("a body that is not monotone");
    }
}

/// Source and target of the transitions that match a modality of the formula; none for another node.
pub(super) fn moves(model: &Model, node: usize) -> Vec<(usize, usize)> {
    let (kinds, operands) = model.formula[1..].split_at(model.formula[0] as usize);
    if matches!(kinds[node], 4 | 5) { steps(model, operands[node] as usize) } else { Vec::new() }
}

/// Source and target of the transitions that an action tree matches.
pub(super) fn steps(model: &Model, tree: usize) -> Vec<(usize, usize)> {
    let (s, t) = (model.system[0] as usize, model.system[1] as usize);
    let (degrees, transitions) = model.system[3..].split_at(s);
    let (labels, targets) = transitions.split_at(t);
    let sources = degrees.iter().enumerate().flat_map(|(state, &degree)| std::iter::repeat_n(state, degree as usize));
    let matched = matched(model, tree);
    sources
        .zip(labels.iter().zip(targets))
        .filter(|(_, (label, _))| matched[**label as usize])
        .map(|(source, (_, target))| (source, *target as usize))
        .collect()
}

/// For each label whether an action tree matches it.
pub(super) fn matched(model: &Model, tree: usize) -> Vec<bool> {
    let multisets = multisets(model);
    (0..multisets.len()).map(|label| matches(model, &multisets, tree, label)).collect()
}

fn matches(model: &Model, multisets: &[Vec<u32>], node: usize, label: usize) -> bool {
    let (kinds, operands) = model.actions[1..].split_at(model.actions[0] as usize);
    let (left, right) = (node + 1, operands[node] as usize);
    let of = |node: usize| matches(model, multisets, node, label);
    match kinds[node] {
        0 => true,
        1 => false,
        2 => multisets[operands[node] as usize] == multisets[label],
        3 => of(left) || of(right),
        4 => of(left) && of(right),
        _ => !of(left),
    }
}

/// The actions of each label in order of their numbers, repeats included.
pub(super) fn multisets(model: &Model) -> Vec<Vec<u32>> {
    let mut multisets = vec![Vec::new(); model.labels[0] as usize];
    let (labels, actions) = model.labels[2..].split_at(model.labels[1] as usize);
    labels.iter().zip(actions).for_each(|(&label, &action)| multisets[label as usize].push(action));
    multisets.iter_mut().for_each(|actions| actions.sort_unstable());
    multisets
}

#[cfg(test)]
mod tests {
    use super::*;
    use crate::check::cases::words;
    use crate::{Answer, Room};

    /// Labels a and b. States 0 to 3: 0 -a-> 1, 0 -b-> 2, 1 -b-> 0, 2 -b-> 2; 3 has no transition. Action trees: 0
    /// is a, 1 is b, 2 is true.
    fn model(formula: &str) -> Model {
        Model {
            labels: words("2 2 0 1 7 8"),
            system: words("4 4 0  2 1 1 0  0 1 1 1  1 2 0 2"),
            actions: words("3 2 2 0 0 1 0"),
            formula: words(formula),
        }
    }

    /// The library must take the words: a slip in them would test nothing.
    fn checked(model: &Model) -> Vec<bool> {
        assert!(matches!(model.build(Room { vertices: 99, edges: 99 }, 99).answer, Answer::Done { .. }), "{model:?}");
        satisfying(model)
    }

    fn states(formula: &str) -> Vec<usize> {
        let satisfying = checked(&model(formula));
        (0..4).filter(|&state| satisfying[state]).collect()
    }

    const ALL: [usize; 4] = [0, 1, 2, 3];
    const NONE: [usize; 0] = [];

    #[test]
    fn without_fixpoints() {
        assert_eq!(states("1 0 0"), ALL);
        assert_eq!(states("1 1 0"), NONE);
        // <a> true, [a] false, <b> true, <true> true
        assert_eq!(states("2 5 0 0 0"), [0]);
        assert_eq!(states("2 4 1 0 0"), [1, 2, 3]);
        assert_eq!(states("2 5 0 1 0"), [0, 1, 2]);
        assert_eq!(states("2 5 0 2 0"), [0, 1, 2]);
        // <b> <a> true; [b] <b> true; <a> true and <b> true; [a] false or false
        assert_eq!(states("3 5 5 0 1 0 0"), [1]);
        assert_eq!(states("3 4 5 0 1 1 0"), ALL);
        assert_eq!(states("5 2 5 0 5 0 3 0 0 1 0"), [0]);
        assert_eq!(states("4 3 4 1 1 3 0 0 0"), [1, 2, 3]);
    }

    #[test]
    fn one_fixpoint() {
        // For ever b; every run ends; <a> for ever.
        assert_eq!(states("3 7 5 8 0 1 0"), [0, 1, 2]);
        assert_eq!(states("3 6 4 8 0 2 0"), [3]);
        assert_eq!(states("3 7 5 8 0 0 0"), NONE);
        // Nothing is a reason for itself, unless it may be.
        assert_eq!(states("2 6 8 0 0"), NONE);
        assert_eq!(states("2 7 8 0 0"), ALL);
        // least X, <a> true or <true> X: an a can be reached.
        assert_eq!(states("6 6 3 5 0 5 8 0 4 0 0 2 0"), [0, 1]);
        // greatest X, <a> true and <true> X fails, since a leads to 1: no run has an a at each step.
        assert_eq!(states("6 7 2 5 0 5 8 0 4 0 0 2 0"), NONE);
    }

    #[test]
    fn nested_fixpoints() {
        // greatest X, least Y, <a> X or <b> Y: a run with a for ever again. 0 and 1 have it, 2 has only b.
        assert_eq!(states("7 7 6 3 5 8 5 8 0 0 5 0 0 1 1"), [0, 1]);
        // least X, greatest Y, <a> X or <b> Y: a run with b alone from some point on.
        assert_eq!(states("7 6 7 3 5 8 5 8 0 0 5 0 0 1 1"), [0, 1, 2]);
        // The same with boxes: all runs have a for ever again, or end; all runs have b alone at last, or end.
        assert_eq!(states("7 7 6 2 4 8 4 8 0 0 5 0 0 1 1"), [3]);
        assert_eq!(states("7 6 7 2 4 8 4 8 0 0 5 0 0 1 1"), [2, 3]);
        // An inner fixpoint begins anew for each set of the outer one: greatest X, <b> X and (least Y, <a> true or
        // <true> Y): a run of b on which an a can always be reached; then a run of anything.
        assert_eq!(states("10 7 2 5 8 6 3 5 0 5 8 0 4 1 0 0 8 0 0 2 4"), NONE);
        assert_eq!(states("10 7 2 5 8 6 3 5 0 5 8 0 4 2 0 0 8 0 0 2 4"), [0, 1]);
    }

    #[test]
    fn an_inner_fixpoint_begins_anew() {
        // 0 -a-> 0; 1 -b-> 1 and 1 -a-> 2; 2 has no transition. greatest X, least Y, <a> X or <b> Y: in 1 there is an
        // a to be reached, but not for ever again. What Y was for the first X would keep 1, by its loop.
        let system = words("3 3 0  1 2 0  0 1 0  0 1 2");
        let formula = words("7 7 6 3 5 8 5 8 0 0 5 0 0 1 1");
        assert_eq!(checked(&Model { system: system.clone(), formula, ..model("1 0 0") }), [true, false, false]);
        // The dual: least X, greatest Y, [a] X and [b] Y.
        let formula = words("7 6 7 2 4 8 4 8 0 0 5 0 0 1 1");
        assert_eq!(checked(&Model { system, formula, ..model("1 0 0") }), [false, true, true]);
    }

    #[test]
    fn references_past_an_inner_fixpoint() {
        // greatest X, least Y, X: X is meant.
        assert_eq!(states("3 7 6 8 0 0 0"), ALL);
        assert_eq!(states("3 6 7 8 0 0 0"), NONE);
        assert_eq!(states("3 7 6 8 0 0 1"), NONE);
    }

    #[test]
    fn labels_are_multisets() {
        // Labels {1, 2}, {2, 1}, {1, 2, 2}, tau; a loop on each in a state of its own.
        let of = |actions: &str| {
            let model = Model {
                labels: words("4 7  0 0 1 1 2 2 2  1 2 2 1 2 1 2"),
                system: words("4 4 0  1 1 1 1  0 1 2 3  0 1 2 3"),
                actions: words(actions),
                formula: words("2 5 0 0 0"),
            };
            checked(&model)
        };
        assert_eq!(of("1 2 1"), [true, true, false, false]);
        assert_eq!(of("1 2 2"), [false, false, true, false]);
        assert_eq!(of("1 2 3"), [false, false, false, true]);
        assert_eq!(of("1 1 0"), [false; 4]);
        assert_eq!(of("2 5 2 0 0"), [false, false, true, true]);
        assert_eq!(of("3 3 2 2 2 0 3"), [true, true, false, true]);
        assert_eq!(of("5 4 5 2 5 2 3 0 0 0 3"), [false, false, true, false]);
    }

    #[test]
    fn the_initial_state_counts() {
        let mut model = model("2 5 0 0 0");
        assert!(holds(&model));
        model.system[2] = 1;
        assert!(!holds(&model));
    }
}
