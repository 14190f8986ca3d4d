//! Refusals told by the thing that is wrong, a transition, an action, a node, with the value found and what is legal:
//! the number of a word helps nobody who writes models or formulas. Things are counted from 0, as in the words.
use crate::nodes::{Nodes, at};
use crate::sizes::expanded_nodes;
use crate::{Formulas, Game, Layout, Model, Refusal, Room};

impl Refusal {
    /// What is wrong with the model, the formula or the room of a run that was refused so.
    pub fn in_model(&self, model: &Model, room: Room) -> String {
        match self.number {
            1 | 60 => self.in_room(room),
            11..=13 => self.of_labels(&model.labels),
            21..=24 => self.of_system(&model.system),
            25 | 26 => self.of_transition(model),
            31..=34 => self.of_actions(&model.labels, &model.actions),
            41..=44 => self.of_formula(&model.formula, &Row::of_actions(&model.actions)),
            45 => self.of_reference(&model.formula),
            _ => self.what().to_string(),
        }
    }

    /// What is wrong with labels, or with formulas whose expansion was refused so.
    pub fn in_formulas(&self, labels: &[u32], formulas: &Formulas) -> String {
        let Formulas { actions, regulars, formula } = formulas;
        let row = regulars.as_ref().map_or_else(|| Row::of_actions(actions), |words| Row::of_regulars(words));
        match self.number {
            11..=13 => self.of_labels(labels),
            31..=34 => self.of_actions(labels, actions),
            41..=44 => self.of_formula(formula, &row),
            45 => self.of_reference(formula),
            61 => wrong_regulars(actions, regulars.as_deref().unwrap_or_default()),
            62 => too_many_nodes(formulas),
            _ => self.what().to_string(),
        }
    }

    /// What is wrong with a game that the restriction, or the writing of its text, refused so.
    pub fn in_game(&self, game: &[u32]) -> String {
        match self.number {
            51 => no_game(game),
            52 => self.of_offset(game),
            53 => self.of_vertex(game),
            98 => stuck(game),
            _ => self.what().to_string(),
        }
    }

    /// What is wrong with a room.
    pub(crate) fn in_room(&self, room: Room) -> String {
        let Room { vertices, edges } = room;
        let most = Room::MOST;
        match self.number {
            1 if !(1..=most.vertices).contains(&vertices) => {
                format!("room for {vertices} vertices is asked for, and 1 to {} are legal", most.vertices)
            }
            1 => format!("room for {edges} edges is asked for, and 1 to {} are legal", most.edges),
            _ => format!(
                "within the step limit the game needs more than the room of {vertices} vertices and {edges} edges \
                 (at most {} and {} can be given)",
                most.vertices, most.edges
            ),
        }
    }

    fn of_labels(&self, labels: &[u32]) -> String {
        let (l, a, found) = (at(labels, 0), at(labels, 1), labels.len());
        let place = self.place as usize;
        match self.number {
            11 if found < 2 => format!("the labels begin with two words, labels and actions, and have {found}"),
            11 => format!("the labels say {a} actions, which makes {} words, and have {found}", 2 + 2 * a as u64),
            12 if l > 4096 => format!("there are {l} labels, and at most 4096 are legal"),
            12 => format!("the labels have {a} actions in all, and at most 16384 are legal"),
            _ => {
                let (label, action) = (at(labels, place), at(labels, place + a as usize));
                let (entry, before) = (place.saturating_sub(2), at(labels, place.saturating_sub(1)));
                let thing = format!("action {action}, entry {entry} of the labels, belongs to label {label}");
                match label >= l {
                    true => format!("{thing}, and {}", counted(l, "label")),
                    false => format!("{thing} and stands after one of label {before}: label numbers never fall"),
                }
            }
        }
    }

    fn of_system(&self, system: &[u32]) -> String {
        let (s, t, found) = (at(system, 0), at(system, 1), system.len());
        match self.number {
            21 if found < 3 => {
                format!("the system begins with three words, states, transitions and initial state, and has {found}")
            }
            21 => {
                let words = 3 + s as u64 + 2 * t as u64;
                format!("the system says {s} states and {t} transitions, which makes {words} words, and has {found}")
            }
            22 if !(1..=65535).contains(&s) => format!("the system has {s} states, and 1 to 65535 are legal"),
            22 => format!("the system has {t} transitions, and at most 262144 are legal"),
            23 => format!("the initial state is {}, and {}", at(system, 2), counted(s, "state")),
            _ => {
                let sum: u64 = system.iter().skip(3).take(s as usize).map(|&degree| degree as u64).sum();
                format!("the out-degrees of the states sum to {sum}, and the system says {t} transitions")
            }
        }
    }

    fn of_transition(&self, model: &Model) -> String {
        let system = &model.system;
        let (s, t) = (at(system, 0) as usize, at(system, 1) as usize);
        let first = if self.number == 25 { 3 + s } else { 3 + s + t };
        let transition = (self.place as usize).saturating_sub(first);
        let source = source_of(system, transition);
        let (label, target) = (at(system, 3 + s + transition), at(system, 3 + s + t + transition));
        match self.number {
            25 => format!(
                "transition {transition}, from state {source} to state {target}, has label {label}, and {}",
                counted(at(&model.labels, 0), "label")
            ),
            _ => format!(
                "transition {transition}, from state {source} by label {label}, leads to state {target}, and {}",
                counted(s as u32, "state")
            ),
        }
    }

    fn of_actions(&self, labels: &[u32], actions: &[u32]) -> String {
        let (nodes, place) = (Nodes::of_actions(actions), self.place as usize);
        match self.number {
            31 => table_length("the action formulas", actions),
            32 => many_nodes("the action formulas have", actions),
            33 => unknown_kind(nodes, place, "action formulas", 5),
            _ if place == nodes.count() => unfinished(nodes, *nodes.first_nodes().last().unwrap_or(&0), "action"),
            _ if nodes.kind(place) == 2 => {
                let labels = counted(at(labels, 0), "label");
                format!("action node {place} (multi-action) names label {}, and {labels}", nodes.operand(place))
            }
            _ => wrong_operand(nodes, place, "action"),
        }
    }

    /// `row` is what boxes and diamonds name trees of.
    fn of_formula(&self, formula: &[u32], row: &Row) -> String {
        let (nodes, place) = (Nodes::of_formula(formula), self.place as usize);
        match self.number {
            41 => table_length("the formula", formula),
            42 => format!("the formula has {} nodes, and 1 to 1024 are legal", at(formula, 0)),
            43 => unknown_kind(nodes, place, "formula", 8),
            _ if place == nodes.count() => unfinished(nodes, 0, "formula"),
            _ if nodes.end(0) == Ok(place) => {
                let last = nodes.count().saturating_sub(1);
                format!("the formula's tree ends before node {place}, and nodes {place} to {last} are left over")
            }
            _ if matches!(nodes.kind(place), 4 | 5) => row.lacks(nodes, place, "formula"),
            _ => wrong_operand(nodes, place, "formula"),
        }
    }

    fn of_reference(&self, formula: &[u32]) -> String {
        let (nodes, place) = (Nodes::of_formula(formula), self.place as usize);
        let to = nodes.operand(place);
        let why = match to {
            _ if to >= nodes.count() => counted(nodes.count() as u32, "node"),
            _ if !matches!(nodes.kind(to), 6 | 7) => format!("that is no fixpoint but {}", nodes.name(to)),
            _ => format!("that {} does not enclose it", nodes.name(to)),
        };
        format!("formula node {place} (reference) names node {to}, and {why}")
    }

    fn of_offset(&self, game: &[u32]) -> String {
        let n = at(game, 0) as usize;
        let place = self.place as usize;
        let (vertex, offset) = (place.saturating_sub(layout_of(game).offsets().start), at(game, place));
        let before = at(game, place.saturating_sub(1));
        match vertex {
            0 => format!("the edges of vertex 0 begin at {offset} and not at 0"),
            _ if offset < before => {
                format!("the edges of vertex {} begin at {before} and end before it, at {offset}", vertex - 1)
            }
            _ => format!("the edges of the last vertex, {}, end at {offset}, and there are {}", n - 1, at(game, 1)),
        }
    }

    fn of_vertex(&self, game: &[u32]) -> String {
        let (layout, place) = (layout_of(game), self.place as usize);
        let found = at(game, place);
        let vertices = counted(at(game, 0), "vertex");
        if let Ok(Some(waiting)) = Game::of_words(game).map(|game| game.first_waiting()) {
            return format!(
                "the game is cut: vertex {waiting} is still waiting (owner 2), and only whole games are restricted or \
                 written as PGSolver text; build it with a larger step limit"
            );
        }
        match place {
            2 => format!("the initial vertex is {found}, and {vertices}"),
            _ if layout.owners().contains(&place) => {
                format!("vertex {} has owner {found}; 0 is Even, 1 is Odd", place - layout.owners().start)
            }
            _ => {
                let edge = place.saturating_sub(layout.targets().start);
                let ends = layout.offsets().start + 1;
                let source = (0..layout.vertices).find(|v| at(game, ends + v) as usize > edge).unwrap_or(0);
                format!("edge {edge}, from vertex {source}, leads to vertex {found}, and {vertices}")
            }
        }
    }
}

/// The state that a transition leaves: transitions stand grouped by their source.
fn source_of(system: &[u32], transition: usize) -> usize {
    let mut end = 0;
    let past = |&degree: &u32| {
        end += degree as usize;
        end > transition
    };
    system.iter().skip(3).take(at(system, 0) as usize).position(past).unwrap_or(0)
}

/// How many things there are, with their numbers.
pub(crate) fn counted(count: u32, thing: &str) -> String {
    let many = if thing == "vertex" { "vertices".to_string() } else { format!("{thing}s") };
    match count {
        0 => format!("there are no {many}"),
        1 => format!("there is one {thing}, number 0"),
        _ => format!("there are {count} {many}, 0 to {}", count - 1),
    }
}

fn table_length(name: &str, words: &[u32]) -> String {
    match words.first() {
        None if name.ends_with('s') => format!("{name} have no words, not even their number of nodes"),
        None => format!("{name} has no words, not even its number of nodes"),
        Some(&n) => {
            let wanted = 1 + 2 * n as u64;
            format!(
                "the first word of {name} says {n} nodes, which makes {wanted} words, and there are {}",
                words.len()
            )
        }
    }
}

fn unknown_kind(nodes: Nodes, node: usize, name: &str, most: u32) -> String {
    format!("node {node} of the {name} has kind {}, and the kinds are 0 to {most}", nodes.kind(node))
}

fn unfinished(nodes: Nodes, first: usize, name: &str) -> String {
    let lacking = nodes.end(first).err().unwrap_or(1);
    let last = nodes.count().saturating_sub(1);
    let more = if lacking == 1 { "one more subtree".to_string() } else { format!("{lacking} more subtrees") };
    format!("the {name} tree of node {first} is unfinished: after node {last} ({}) it needs {more}", nodes.name(last))
}

/// For the kinds whose operand is 0 or the right child.
fn wrong_operand(nodes: Nodes, node: usize, name: &str) -> String {
    let thing = format!("{name} node {node} ({}) has operand {}", nodes.name(node), nodes.operand(node));
    match (nodes.children(node), nodes.end(node + 1)) {
        (2, Ok(right)) => format!("{thing}, and its right child is node {right}, just past its left child's tree"),
        _ => format!("{thing}, and it must be 0"),
    }
}

/// A row of trees that nodes of another table name by their first nodes.
struct Row<'a> {
    nodes: Nodes<'a>,
    of: &'static str,
}

impl<'a> Row<'a> {
    fn of_actions(words: &'a [u32]) -> Row<'a> {
        Row { nodes: Nodes::of_actions(words), of: "action" }
    }

    fn of_regulars(words: &'a [u32]) -> Row<'a> {
        Row { nodes: Nodes::of_regulars(words), of: "regular" }
    }

    /// Why what a node of a table names is no tree of the row.
    fn lacks(&self, table: Nodes, node: usize, name: &str) -> String {
        let (to, of, count) = (table.operand(node), self.of, self.nodes.count());
        let why = match self.nodes.first_nodes().iter().rfind(|&&first| first < to) {
            None => format!("there are no {of} formulas"),
            Some(_) if to >= count => counted(count as u32, &format!("{of} node")),
            Some(tree) => format!("that is inside the {of} formula that begins at node {tree}"),
        };
        format!("{name} node {node} ({}) names {of} node {to}, and {why}", table.name(node))
    }
}

/// What is wrong with refused regular formulas: of several faults that of the table before that of a kind, and that
/// before the others, of which the one at the smallest node is told.
fn wrong_regulars(actions: &[u32], regulars: &[u32]) -> String {
    let nodes = Nodes::of_regulars(regulars);
    let count = at(regulars, 0) as usize;
    if regulars.len() != 1 + 2 * count {
        return table_length("the regular formulas", regulars);
    }
    if count > 1024 {
        return many_nodes("the regular formulas have", regulars);
    }
    if let Some(node) = (0..count).find(|&node| nodes.kind(node) > 4) {
        return unknown_kind(nodes, node, "regular formulas", 4);
    }
    let row = Row::of_actions(actions);
    let named = row.nodes.first_nodes();
    let is_wrong = |node: usize| match (nodes.children(node), nodes.end(node + 1)) {
        (0, _) => !named.contains(&nodes.operand(node)),
        (2, right) => right.is_ok_and(|right| right != nodes.operand(node)),
        _ => nodes.operand(node) != 0,
    };
    match (0..count).find(|&node| is_wrong(node)) {
        Some(node) if nodes.children(node) == 0 => row.lacks(nodes, node, "regular"),
        Some(node) => wrong_operand(nodes, node, "regular"),
        None => unfinished(nodes, *nodes.first_nodes().last().unwrap_or(&0), "regular"),
    }
}

fn too_many_nodes(formulas: &Formulas) -> String {
    let nodes = expanded_nodes(formulas).map_or("more than 10^19".to_string(), |nodes| nodes.to_string());
    format!(
        "expanded, the formula has {nodes} nodes, and at most 1024 are legal: each part of a choice has a copy of what \
         stands behind it (a union of action formulas needs none), and a plus has one of what it repeats"
    )
}

fn many_nodes(what: &str, words: &[u32]) -> String {
    format!("{what} {} nodes, and at most 1024 are legal", at(words, 0))
}

fn no_game(game: &[u32]) -> String {
    let (n, m, found) = (at(game, 0), at(game, 1), game.len());
    let wanted = layout_of(game).words();
    let most = Room::MOST;
    match found {
        0..3 => format!("a game begins with three words, vertices, edges and initial vertex, and there are {found}"),
        _ if n == 0 => "the game has no vertex".to_string(),
        _ if wanted != found => {
            let lacking = lacking(game).map_or(String::new(), |what| format!(": {what} are missing"));
            format!("{n} vertices and {m} edges make {wanted} words, and there are {found}{lacking}")
        }
        _ if n > most.vertices => format!("the game has {n} vertices, and at most {} are legal", most.vertices),
        _ => format!("the game has {m} edges, and at most {} are legal", most.edges),
    }
}

/// Where the words of a game stand that may be none.
fn layout_of(game: &[u32]) -> Layout {
    Layout { vertices: at(game, 0) as usize, edges: at(game, 1) as usize }
}

/// What is missing in words that have the length of a game as games were: before their vertices had states and items,
/// and before their edges had counts.
pub(crate) fn lacking(game: &[u32]) -> Option<&'static str> {
    let layout = layout_of(game);
    let without_states = layout.words() - 2 * layout.vertices;
    match game.len() {
        _ if layout.vertices == 0 => None,
        found if found == without_states => Some("the vertices' states and items"),
        found if found == without_states - layout.edges => Some("the vertices' states and items and the edges' counts"),
        _ => None,
    }
}

fn stuck(game: &[u32]) -> String {
    let layout = layout_of(game);
    let begins = |vertex: usize| at(game, layout.offsets().start + vertex);
    let vertex = (0..layout.vertices).find(|&vertex| begins(vertex) == begins(vertex + 1)).unwrap_or(0);
    format!("vertex {vertex} has no successors, and in PGSolver text every vertex has one")
}
