//! What the Rust original doesn't say of a game, from system and formula alone: which state and item each vertex stands
//! for, and how many transitions are behind each edge. Following the edges from the initial vertex tells it of every
//! vertex, waiting ones too; this is the second opinion on both implementations. Of the edges it finds a wrong number,
//! or a target of a wrong state or item.
use super::item_numbers::ItemNumbers;
use super::meaning;
use super::oracle::{original_edges, original_words};
use crate::{Layout, Model};
use std::collections::{HashMap, HashSet};

/// What a vertex stands for beside its state.
#[derive(Clone, Copy)]
enum Part {
    /// The equation with the right side that begins at this node: of a fixpoint, or the one around the whole formula.
    Equation(usize),
    /// A node of a right side. A fixpoint there refers to its equation.
    Node(usize),
}

impl Part {
    fn item(self, numbers: &ItemNumbers) -> u32 {
        match self {
            Part::Equation(right_side) => numbers.equation(right_side),
            Part::Node(node) => numbers.node(node),
        }
    }
}

/// An edge by what it leads to, and how many transitions are behind it.
struct Edge {
    state: usize,
    part: Part,
    count: u32,
}

struct Rules<'a> {
    kinds: &'a [u32],
    operands: &'a [u32],
    labels: &'a [u32],
    targets: &'a [u32],
    /// Where the transitions of each state begin, and at last where they end.
    starts: Vec<usize>,
    /// Which labels an action tree matches, by its first node.
    matched: HashMap<usize, Vec<bool>>,
    /// For each state the number of the modality that met it last, and which of its edges leads there.
    met: Vec<(usize, usize)>,
    modalities: usize,
}

impl<'a> Rules<'a> {
    fn of(model: &'a Model) -> Rules<'a> {
        let (kinds, operands) = model.formula[1..].split_at(model.formula[0] as usize);
        let (s, t) = (model.system[0] as usize, model.system[1] as usize);
        let (degrees, transitions) = model.system[3..].split_at(s);
        let (labels, targets) = transitions.split_at(t);
        let mut starts = vec![0];
        starts.extend(degrees.iter().scan(0, |end, &degree| {
            *end += degree as usize;
            Some(*end)
        }));
        let (matched, met) = (HashMap::new(), vec![(0, 0); s]);
        Rules { kinds, operands, labels, targets, starts, matched, met, modalities: 0 }
    }

    fn whole_formula(&self) -> Part {
        Part::Equation(usize::from(matches!(self.kinds[0], 6 | 7)))
    }

    /// The edges of a vertex in order, none where it is stuck.
    fn edges(&mut self, model: &Model, state: usize, part: Part) -> Vec<Edge> {
        let here = |part: Part| Edge { state, part, count: 0 };
        let node = match part {
            Part::Equation(right_side) => return vec![here(Part::Node(right_side))],
            Part::Node(node) => node,
        };
        let operand = self.operands[node] as usize;
        match self.kinds[node] {
            0 | 1 => vec![],
            2 | 3 => vec![here(Part::Node(node + 1)), here(Part::Node(operand))],
            4 | 5 => self.moves(model, state, node),
            6 | 7 => vec![here(Part::Equation(node + 1))],
            _ => vec![here(Part::Equation(operand + 1))],
        }
    }

    /// Of a modality: an edge for each state that matching transitions lead to, as it is met first.
    fn moves(&mut self, model: &Model, state: usize, node: usize) -> Vec<Edge> {
        let tree = self.operands[node] as usize;
        let matched = self.matched.entry(tree).or_insert_with(|| meaning::matched(model, tree));
        self.modalities += 1;
        let mut edges: Vec<Edge> = Vec::new();
        for transition in self.starts[state]..self.starts[state + 1] {
            if !matched[self.labels[transition] as usize] {
                continue;
            }
            let state = self.targets[transition] as usize;
            let (last, edge) = &mut self.met[state];
            if *last != self.modalities {
                (*last, *edge) = (self.modalities, edges.len());
                edges.push(Edge { state, part: Part::Node(node + 1), count: 0 });
            }
            edges[*edge].count += 1;
        }
        edges
    }
}

/// For each vertex its state and item, for each edge its count.
#[derive(Clone, Debug, Default, PartialEq, Eq)]
pub struct Columns {
    pub states: Vec<u32>,
    pub items: Vec<u32>,
    pub counts: Vec<u32>,
}

impl Columns {
    /// Those that a game shows.
    pub fn shown(game: &[u32]) -> Columns {
        let layout = Layout::of(game);
        let [states, items, counts] = [layout.states(), layout.items(), layout.counts()].map(|at| game[at].to_vec());
        Columns { states, items, counts }
    }

    /// Puts them into a game as the original writes it.
    pub fn into_game(self, original: &[u32]) -> Vec<u32> {
        let Columns { states, items, counts } = self;
        let (front, back) = original.split_at(Layout::of(original).states().start);
        [front, &states, &items, back, &counts].concat()
    }
}

/// The columns of a game that is given as the original writes it; the model must be one that is accepted, the game may
/// be cut. An error where the edges are not those of the rules.
pub fn columns(model: &Model, original: &[u32]) -> Result<Columns, String> {
    let numbers = ItemNumbers::of(model);
    let (stands_for, counts) = followed(model, original, &numbers)?;
    let pair = |(vertex, known): (usize, Option<(usize, Part)>)| match known {
        Some((state, part)) => Ok((state as u32, part.item(&numbers))),
        None => Err(format!("vertex {vertex} is the target of no edge that is followed")),
    };
    let pairs: Result<Vec<(u32, u32)>, String> = stands_for.into_iter().enumerate().map(pair).collect();
    let (states, items) = pairs?.into_iter().unzip();
    Ok(Columns { states, items, counts })
}

/// State and part of each vertex that edges lead to from vertex 0, and the count of each edge.
type Followed = (Vec<Option<(usize, Part)>>, Vec<u32>);

fn followed(model: &Model, original: &[u32], numbers: &ItemNumbers) -> Result<Followed, String> {
    let (n, m) = (original[0] as usize, original[1] as usize);
    let targets = &original[original_words(n, m) - m..];
    let mut rules = Rules::of(model);
    let (mut counts, mut stands_for) = (vec![0; m], vec![None; n]);
    stands_for[0] = Some((model.system[2] as usize, rules.whole_formula()));
    let mut waiting = vec![0];
    while let Some(vertex) = waiting.pop() {
        let (Some((state, part)), 0 | 1) = (stands_for[vertex], original[3 + vertex]) else { continue };
        let (edges, range) = (rules.edges(model, state, part), original_edges(original, vertex));
        let wrong = || format!("the edges of vertex {vertex} are not those of the rules");
        if edges.is_empty() && targets[range.clone()] == [vertex as u32] {
            continue;
        }
        if edges.len() != range.len() || edges.is_empty() {
            return Err(wrong());
        }
        for (at, Edge { state, part, count }) in range.zip(edges) {
            counts[at] = count;
            let target = targets[at] as usize;
            match stands_for[target] {
                Some((known, of)) if known != state || of.item(numbers) != part.item(numbers) => return Err(wrong()),
                Some(_) => {}
                None => {
                    stands_for[target] = Some((state, part));
                    waiting.push(target);
                }
            }
        }
    }
    Ok((stands_for, counts))
}

/// A game with its columns.
pub fn completed(model: &Model, original: &[u32]) -> Result<Vec<u32>, String> {
    Ok(columns(model, original)?.into_game(original))
}

/// The columns of a restricted game: each vertex that has a new number keeps its own, whatever they are.
pub fn carried(game: &[u32], map: &[u32]) -> Columns {
    let Columns { states, items, counts } = Columns::shown(game);
    let kept = (0..map.len()).filter(|&old| map[old] != u32::MAX);
    let mut order: Vec<usize> = kept.collect();
    order.sort_unstable_by_key(|&old| map[old]);
    let of_vertices = |column: Vec<u32>| order.iter().map(|&old| column[old]).collect();
    let of_edges = |&old: &usize| &counts[Layout::of(game).edges_of(game, old)];
    Columns {
        states: of_vertices(states),
        items: of_vertices(items),
        counts: order.iter().flat_map(of_edges).copied().collect(),
    }
}

/// What is wrong with the states and items of a run's game, by themselves: no two vertices have the same two, all are
/// those of the model, and vertex 0 has the initial state and item 0.
pub fn misplaced(model: &Model, game: &[u32]) -> Option<String> {
    let Columns { states, items, .. } = Columns::shown(game);
    let count = ItemNumbers::of(model).count;
    let pairs: Vec<(u32, u32)> = states.into_iter().zip(items).collect();
    let outside = |&(state, item): &(u32, u32)| state >= model.system[0] || item >= count;
    if pairs[0] != (model.system[2], 0) {
        return Some(format!("vertex 0 stands for {:?}", pairs[0]));
    }
    if let Some(vertex) = pairs.iter().position(outside) {
        return Some(format!("vertex {vertex} stands for {:?}, and there are {count} items", pairs[vertex]));
    }
    let distinct: HashSet<(u32, u32)> = pairs.iter().copied().collect();
    (distinct.len() < pairs.len()).then(|| "two vertices have the same state and item".to_string())
}

#[cfg(test)]
mod tests {
    use super::*;
    use crate::check::cases::words;

    fn model(system: &str, formula: &str) -> Model {
        Model {
            labels: words("2 2 0 1 7 8"),
            system: words(system),
            actions: words("2 2 0 0 0"),
            formula: words(formula),
        }
    }

    /// Two states; from state 0 by label 0 to 1, by label 1 to 0, by label 0 to 1 and to 0. Node 0 of the actions is
    /// label 0, node 1 is true.
    const FOUR: &str = "2 4 0  4 0  0 1 0 0  1 0 1 0";

    fn counts(model: &Model, original: &str) -> Result<Vec<u32>, String> {
        columns(model, &words(original)).map(|columns| columns.counts)
    }

    #[test]
    fn matching_transitions_are_counted() {
        // <label 0> true: one edge to state 1 for two transitions, one to state 0.
        let by_label = "4 5 0  1 0 1 1  1 0 0 0  0 1 3 4 5  1 2 3 2 3";
        assert_eq!(counts(&model(FOUR, "2 5 0 0 0"), by_label), Ok(vec![0, 2, 1, 0, 0]));
        // <true> true: the transition by label 1 counts, too.
        assert_eq!(counts(&model(FOUR, "2 5 0 1 0"), by_label), Ok(vec![0, 2, 2, 0, 0]));
        // Vertices that wait have no edges.
        let cut = "4 3 0  1 0 2 2  1 0 0 0  0 1 3 3 3  1 2 3";
        assert_eq!(counts(&model(FOUR, "2 5 0 0 0"), cut), Ok(vec![0, 2, 1]));
    }

    #[test]
    fn other_edges_have_none() {
        // greatest X, <label 0> X without a transition: the diamond's loop is an added one.
        let stuck = "2 2 0  0 0  0 1  0 1 2  1 1";
        assert_eq!(counts(&model("1 0 0 0", "3 7 5 8 0 0 0"), stuck), Ok(vec![0, 0]));
        let on_loop = "3 3 0  0 0 1  0 0 0  0 1 2 3  1 2 0";
        assert_eq!(counts(&model("1 2 0 2 0 0 0 0", "3 7 5 8 0 0 0"), on_loop), Ok(vec![0, 2, 0]));
    }

    #[test]
    fn vertices_stand_for_states_and_items() {
        // The placeholder, the diamond, and true in the states 1 and 0, whether they wait or not.
        let (states, items) = (vec![0, 0, 1, 0], vec![0, 1, 2, 2]);
        for game in ["4 5 0  1 0 1 1  1 0 0 0  0 1 3 4 5  1 2 3 2 3", "4 3 0  1 0 2 2  1 0 0 0  0 1 3 3 3  1 2 3"] {
            let found = columns(&model(FOUR, "2 5 0 0 0"), &words(game)).unwrap();
            assert_eq!((&found.states, &found.items), (&states, &items));
        }
        let one = words("1 0 0  2  0  0 0");
        assert_eq!(completed(&model("3 0 2 0 0 0", "1 0 0"), &one), Ok(words("1 0 0  2  0  2  0  0 0")));
        let on_loop = words("3 3 0  0 0 1  0 0 0  0 1 2 3  1 2 0");
        let whole = words("3 3 0  0 0 1  0 0 0  0 0 0  0 1 2  0 1 2 3  1 2 0  0 1 0");
        assert_eq!(completed(&model("1 1 0 1 0 0", "3 7 5 8 0 0 0"), &on_loop), Ok(whole.clone()));
        assert_eq!(misplaced(&model("1 1 0 1 0 0", "3 7 5 8 0 0 0"), &whole), None);
    }

    #[test]
    fn wrong_states_and_items_show() {
        let wrong = |states: &str, items: &str| {
            let game = format!("3 3 0  0 0 1  0 0 0  {states}  {items}  0 1 2 3  1 2 0  0 1 0");
            misplaced(&model("2 1 1 0 1 0 1", "3 7 5 8 0 0 0"), &words(&game)).is_some()
        };
        assert!(!wrong("1 1 1", "0 1 2"));
        assert!(!wrong("1 0 1", "0 0 2"));
        assert!(wrong("0 1 1", "0 1 2") && wrong("1 1 1", "1 0 2"));
        assert!(wrong("1 2 1", "0 1 2") && wrong("1 1 1", "0 1 3"));
        assert!(wrong("1 1 1", "0 1 1") && wrong("1 1 1", "0 2 2"));
    }

    #[test]
    fn edges_of_other_rules_show() {
        let fails = |game: &str| counts(&model(FOUR, "2 5 0 0 0"), game).is_err();
        // An edge too few, one too many, a vertex that no edge leads to, and a diamond that is not stuck.
        assert!(fails("3 3 0  1 0 1  1 0 0  0 1 2 3  1 2 2"));
        assert!(fails("4 6 0  1 0 1 1  1 0 0 0  0 1 4 5 6  1 2 3 2 2 3"));
        assert!(fails("5 5 0  1 0 1 1 1  1 0 0 0 0  0 1 3 4 5 5  1 2 3 2 3"));
        assert!(fails("2 2 0  1 0  1 1  0 1 2  1 1"));
        // true and true leads to true twice; true and false does not.
        let twice = "3 4 0  1 1 1  1 0 0  0 1 3 4  1 2 2 2";
        assert_eq!(counts(&model(FOUR, "3 2 0 0 2 0 0"), twice), Ok(vec![0; 4]));
        assert!(counts(&model(FOUR, "3 2 0 1 2 0 0"), twice).is_err());
    }

    #[test]
    fn kept_vertices_bring_their_columns() {
        let game = words("3 4 2  0 0 0  0 0 0  7 8 9  4294967295 5 5  0 1 2 4  2 0 0 2  4294967295 5 6 7");
        let kept = carried(&game, &words("1 4294967295 0"));
        assert_eq!((kept.states, kept.items), (words("9 7"), words("5 4294967295")));
        assert_eq!(kept.counts, words("6 7 4294967295"));
        let alone = Columns { states: vec![3], items: vec![4], counts: vec![] };
        assert_eq!(carried(&words("1 0 0 0 0 3 4 0 0"), &[0]), alone);
    }
}
