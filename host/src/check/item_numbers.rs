//! The numbers of a formula's items, from the words alone: every node is spelled as it stands in its body, and nodes
//! that are spelled alike are one item. The two implementations number shapes instead.
use super::meaning;
use crate::Model;
use std::collections::HashMap;

pub struct ItemNumbers {
    /// The equation of each fixpoint's node.
    equations: HashMap<usize, u32>,
    /// The item of each node as it stands in its body.
    nodes: Vec<u32>,
    /// How many items there are.
    pub count: u32,
}

impl ItemNumbers {
    /// The model must be one that is accepted.
    pub fn of(model: &Model) -> ItemNumbers {
        let kinds = &model.formula[1..][..model.formula[0] as usize];
        let fixpoint = |node: &usize| matches!(kinds[*node], 6 | 7);
        // The equation around a formula that is no fixpoint is the first.
        let placeholder = u32::from(!fixpoint(&0));
        let equations: HashMap<usize, u32> = (0..kinds.len()).filter(fixpoint).zip(placeholder..).collect();
        let spelled = Spelling::new(model, &equations).nodes();
        let (mut known, mut nodes) = (HashMap::new(), vec![0; kinds.len()]);
        let mut count = placeholder + equations.len() as u32;
        // Node 0 stands in no body if it is a fixpoint.
        for node in usize::from(fixpoint(&0))..kinds.len() {
            nodes[node] = *known.entry(&spelled[node]).or_insert(count);
            count = count.max(nodes[node] + 1);
        }
        ItemNumbers { equations, nodes, count }
    }

    /// The equation whose right side begins at a node; that of no fixpoint is the one around the whole formula.
    pub fn equation(&self, right_side: usize) -> u32 {
        right_side.checked_sub(1).map_or(0, |fixpoint| self.equations[&fixpoint])
    }

    /// The item of a node of a right side.
    pub fn node(&self, node: usize) -> u32 {
        self.nodes[node]
    }
}

struct Spelling<'a> {
    model: &'a Model,
    equations: &'a HashMap<usize, u32>,
    /// For each label the first one that has the same actions.
    labels: Vec<usize>,
    /// For each action tree that was met the first one that is spelled alike: a long spelling is not repeated.
    trees: HashMap<usize, usize>,
    spelled: HashMap<String, usize>,
}

impl<'a> Spelling<'a> {
    fn new(model: &'a Model, equations: &'a HashMap<usize, u32>) -> Spelling<'a> {
        let mut first = HashMap::new();
        let multisets = meaning::multisets(model).into_iter().enumerate();
        let labels = multisets.map(|(label, actions)| *first.entry(actions).or_insert(label)).collect();
        Spelling { model, equations, labels, trees: HashMap::new(), spelled: HashMap::new() }
    }

    /// All nodes, each as it stands in its body; children come later, so the last node is first.
    fn nodes(mut self) -> Vec<String> {
        let (kinds, operands) = self.model.formula[1..].split_at(self.model.formula[0] as usize);
        let mut spelled = vec![String::new(); kinds.len()];
        for node in (0..kinds.len()).rev() {
            let operand = operands[node] as usize;
            spelled[node] = match kinds[node] {
                0 => "true".to_string(),
                1 => "false".to_string(),
                2 => format!("({}&{})", spelled[node + 1], spelled[operand]),
                3 => format!("({}|{})", spelled[node + 1], spelled[operand]),
                4 => format!("[{}]{}", self.action(operand), spelled[node + 1]),
                5 => format!("<{}>{}", self.action(operand), spelled[node + 1]),
                6 | 7 => format!("X{}", self.equations[&node]),
                _ => format!("X{}", self.equations[&operand]),
            };
        }
        spelled
    }

    fn action(&mut self, tree: usize) -> usize {
        if let Some(&known) = self.trees.get(&tree) {
            return known;
        }
        let mut text = String::new();
        self.spell_action(&mut text, tree);
        let first = *self.spelled.entry(text).or_insert(tree);
        self.trees.insert(tree, first);
        first
    }

    fn spell_action(&self, text: &mut String, node: usize) {
        let (kinds, operands) = self.model.actions[1..].split_at(self.model.actions[0] as usize);
        let operand = operands[node] as usize;
        match kinds[node] {
            0 => text.push_str("true"),
            1 => text.push_str("false"),
            2 => *text += &format!("label{}", self.labels[operand]),
            3 | 4 => {
                text.push('(');
                self.spell_action(text, node + 1);
                text.push(if kinds[node] == 3 { '|' } else { '&' });
                self.spell_action(text, operand);
                text.push(')');
            }
            _ => {
                text.push('!');
                self.spell_action(text, node + 1);
            }
        }
    }
}

#[cfg(test)]
mod tests {
    use super::*;
    use crate::check::cases::words;

    fn numbers(labels: &str, actions: &str, formula: &str) -> ItemNumbers {
        let [labels, actions, formula] = [labels, actions, formula].map(words);
        ItemNumbers::of(&Model { labels, system: words("1 0 0 0"), actions, formula })
    }

    fn nodes(formula: &str) -> Vec<u32> {
        numbers("1 1 0 7", "1 2 0", formula).nodes
    }

    #[test]
    fn equations_first_then_the_lowest_node() {
        // greatest X, <a> X: the equation, the diamond, the reference; node 0 stands in no body.
        assert_eq!(nodes("3 7 5 8 0 0 0"), [0, 1, 2]);
        // true and (true and false): the placeholder, and without a gap the nodes 0, 1, 2 and 4.
        assert_eq!(nodes("5 2 0 2 0 1 2 0 4 0 0"), [1, 2, 3, 2, 4]);
        // greatest X, least Y, <a> (reference to Y): the reference is Y in the body of X.
        let both = numbers("1 1 0 7", "1 2 0", "4 7 6 5 8 0 0 0 1");
        assert_eq!((both.nodes, both.count), (vec![0, 2, 3, 2], 4));
    }

    #[test]
    fn equations_by_their_right_sides() {
        let two = numbers("1 1 0 7", "1 2 0", "4 7 6 5 8 0 0 0 1");
        assert_eq!([1, 2].map(|right_side| two.equation(right_side)), [0, 1]);
        // [a] least X, X: the placeholder's right side is the whole formula.
        let placed = numbers("1 1 0 7", "1 2 0", "3 4 6 8 0 0 1");
        assert_eq!([0, 2].map(|right_side| placed.equation(right_side)), [0, 1]);
    }

    #[test]
    fn action_formulas_by_what_they_say() {
        // Labels 7 8 and 8 7 are alike, 7 is not; of the actions the nodes 0, 1 and 2 name them.
        let of = |formula: &str| numbers("3 5 0 0 1 1 2 7 8 8 7 7", "5 2 2 2 0 5 0 1 2 0 0", formula).nodes;
        assert_eq!(of("5 2 5 0 5 0 3 0 0 1 0"), [1, 2, 3, 2, 3]);
        assert_eq!(of("5 2 5 0 5 0 3 0 0 2 0"), [1, 2, 3, 4, 3]);
        assert_eq!(of("5 2 5 0 4 0 3 0 0 1 0"), [1, 2, 3, 4, 3]);
    }
}
