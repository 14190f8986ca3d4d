//! What a formula over regular formulas means on a model, without expanding it: a box or diamond speaks of the states
//! at the end of a path whose labels are a word of its regular formula. Which states those are is worked out for the
//! regular formula as a relation of states, composed of those of its parts.
use super::call::Input;
use crate::Model;
use crate::check::meaning;

/// For each state whether it satisfies the formula. The input must be one that is accepted, on a system that is.
pub fn satisfying(input: &Input, system: &[u32]) -> Vec<bool> {
    let relations = relations(input, system);
    let (kinds, operands) = input.formula[1..].split_at(input.formula[0] as usize);
    let modality = |(&kind, &operand): (&u32, &u32)| match kind {
        4 | 5 => relations[operand as usize].pairs(),
        _ => Vec::new(),
    };
    let moves = kinds.iter().zip(operands).map(modality).collect();
    meaning::satisfying_by(&input.formula, system[0] as usize, moves)
}

/// The relation of each node of the regular formulas.
fn relations(input: &Input, system: &[u32]) -> Vec<Relation> {
    let model: Model = input.model(system, &[]);
    let states = system[0] as usize;
    let nodes = input.regulars[0] as usize;
    let (kinds, operands) = input.regulars[1..].split_at(nodes);
    // Children stand past their parents.
    let mut relations = vec![Relation::none(states); nodes];
    for node in (0..nodes).rev() {
        let operand = operands[node] as usize;
        relations[node] = match kinds[node] {
            0 => Relation::of(states, &meaning::steps(&model, operand)),
            1 => relations[node + 1].then(&relations[operand]),
            2 => relations[node + 1].or(&relations[operand]),
            3 => relations[node + 1].any_times(),
            _ => relations[node + 1].then(&relations[node + 1].any_times()),
        };
    }
    relations
}

/// Which states a path leads to, for each state that it may begin in.
#[derive(Clone, PartialEq, Eq)]
struct Relation {
    to: Vec<Vec<bool>>,
}

impl Relation {
    fn none(states: usize) -> Relation {
        Relation { to: vec![vec![false; states]; states] }
    }

    fn of(states: usize, pairs: &[(usize, usize)]) -> Relation {
        let mut relation = Relation::none(states);
        pairs.iter().for_each(|&(from, to)| relation.to[from][to] = true);
        relation
    }

    fn pairs(&self) -> Vec<(usize, usize)> {
        let from = |(from, to): (usize, &Vec<bool>)| {
            let ends = to.iter().enumerate().filter(|(_, related)| **related);
            ends.map(|(to, _)| (from, to)).collect::<Vec<_>>()
        };
        self.to.iter().enumerate().flat_map(from).collect()
    }

    fn then(&self, next: &Relation) -> Relation {
        let mut both = Relation::none(self.to.len());
        for (from, middle) in self.pairs() {
            both.to[from].iter_mut().zip(&next.to[middle]).for_each(|(one, &other)| *one |= other);
        }
        both
    }

    fn or(&self, other: &Relation) -> Relation {
        let mut either = self.clone();
        other.pairs().into_iter().for_each(|(from, to)| either.to[from][to] = true);
        either
    }

    /// No time, once, twice and so on, until nothing new comes.
    fn any_times(&self) -> Relation {
        let states = 0..self.to.len();
        let stay: Vec<(usize, usize)> = states.map(|state| (state, state)).collect();
        let mut times = self.or(&Relation::of(self.to.len(), &stay));
        loop {
            let more = times.then(&times);
            if more == times {
                return times;
            }
            times = more;
        }
    }
}

#[cfg(test)]
mod tests {
    use super::*;
    use crate::check::cases::words;

    /// States 0 to 4: 0 -a-> 1, 1 -b-> 2, 2 -a-> 0, 2 -b-> 3, 3 -a-> 4; 4 has no transition. Action tree 0 is a, 1 is
    /// b, 2 is true.
    fn states(regulars: &str, formula: &str) -> Vec<usize> {
        let input = Input {
            labels: words("2 2 0 1 7 8"),
            actions: words("3 2 2 0 0 1 0"),
            regulars: words(regulars),
            formula: words(formula),
        };
        let satisfying = satisfying(&input, &words("5 5 0  1 1 2 1 0  0 1 0 1 0  1 2 0 3 4"));
        (0..5).filter(|&state| satisfying[state]).collect()
    }

    /// <R> [true] false: a path of R ends in 4. The last tree is true.
    fn to_the_end(regular: &str) -> Vec<usize> {
        let (nodes, mut row) = (words(regular).len() as u32 / 2, words(regular));
        row.insert(nodes as usize, 0);
        row.push(2);
        let row: Vec<String> = [vec![nodes + 1], row].concat().iter().map(u32::to_string).collect();
        states(&row.join(" "), &format!("3 5 4 1 0 {nodes} 0"))
    }

    #[test]
    fn paths_to_the_end() {
        // a; a . b; b . a; a + b; a*; (b . a)*; (a + b)*
        assert_eq!(to_the_end("0 0"), [3]);
        assert_eq!(to_the_end("1 0 0 2 0 1"), []);
        assert_eq!(to_the_end("1 0 0 2 1 0"), [2]);
        assert_eq!(to_the_end("2 0 0 2 0 1"), [3]);
        assert_eq!(to_the_end("3 0 0 0"), [3, 4]);
        assert_eq!(to_the_end("3 1 0 0 0 3 1 0"), [2, 4]);
        assert_eq!(to_the_end("3 2 0 0 0 3 0 1"), [0, 1, 2, 3, 4]);
        // a+; (b . a)+; (a + b)+; (a*)+; (a+)*
        assert_eq!(to_the_end("4 0 0 0"), [3]);
        assert_eq!(to_the_end("4 1 0 0 0 3 1 0"), [2]);
        assert_eq!(to_the_end("4 2 0 0 0 3 0 1"), [0, 1, 2, 3]);
        assert_eq!(to_the_end("4 3 0 0 0 0"), [3, 4]);
        assert_eq!(to_the_end("3 4 0 0 0 0"), [3, 4]);
    }

    #[test]
    fn boxes_ask_all_paths() {
        // [true*] <a> true fails where 1 or 4 is reached; [a] <b> true, [b . b] false, [a*] <a> true.
        assert_eq!(states("3 3 0 0 0 2 0", "3 4 5 0 0 2 0"), []);
        assert_eq!(states("2 0 0 0 1", "3 4 5 0 0 1 0"), [0, 1, 4]);
        assert_eq!(states("3 1 0 0 2 1 1", "2 4 1 0 0"), [0, 2, 3, 4]);
        assert_eq!(states("3 3 0 0 0 0 0", "3 4 5 0 0 2 0"), []);
        assert_eq!(states("3 3 0 0 0 0 1", "3 4 5 0 0 2 1"), [1]);
    }

    #[test]
    fn under_a_fixpoint() {
        // greatest X, <a . b> X: no run is a, b, a, b and so on; the circle is a, b, a and so on.
        assert_eq!(states("3 1 0 0 2 0 1", "3 7 5 8 0 0 0"), []);
        assert_eq!(states("5 1 0 1 0 0 2 0 4 1 0", "3 7 5 8 0 0 0"), [0]);
    }
}
