//! Where a game's words stand, and a game by vertex: owner, priority, state and item, successors and their counts.
use crate::{Refusal, Room};
use std::ops::Range;

#[derive(Clone, Copy, Debug, PartialEq, Eq)]
pub enum Player {
    Even,
    Odd,
}

/// How many words a game of so many vertices and edges has.
pub const fn game_words(vertices: usize, edges: usize) -> usize {
    Layout { vertices, edges }.words()
}

/// Where the words of a game of so many vertices and edges stand: vertices, edges and initial vertex; then owners,
/// priorities, states and items, a word of each for each vertex; then the offsets, one more than there are vertices;
/// then targets and counts, a word of each for each edge.
#[derive(Clone, Copy, Debug, PartialEq, Eq)]
pub struct Layout {
    pub vertices: usize,
    pub edges: usize,
}

impl Layout {
    /// The sizes that a game's words begin with; there must be two words.
    pub const fn of(game: &[u32]) -> Layout {
        Layout { vertices: game[0] as usize, edges: game[1] as usize }
    }

    /// Owners, priorities, states and items, one column after the other.
    pub const fn vertex_columns(self) -> Range<usize> {
        3..3 + 4 * self.vertices
    }

    const fn vertex_column(self, column: usize) -> Range<usize> {
        let start = 3 + column * self.vertices;
        start..start + self.vertices
    }

    pub const fn owners(self) -> Range<usize> {
        self.vertex_column(0)
    }

    pub const fn priorities(self) -> Range<usize> {
        self.vertex_column(1)
    }

    pub const fn states(self) -> Range<usize> {
        self.vertex_column(2)
    }

    pub const fn items(self) -> Range<usize> {
        self.vertex_column(3)
    }

    pub const fn offsets(self) -> Range<usize> {
        let start = self.vertex_columns().end;
        start..start + self.vertices + 1
    }

    const fn edge_column(self, column: usize) -> Range<usize> {
        let start = self.offsets().end + column * self.edges;
        start..start + self.edges
    }

    pub const fn targets(self) -> Range<usize> {
        self.edge_column(0)
    }

    pub const fn counts(self) -> Range<usize> {
        self.edge_column(1)
    }

    pub const fn words(self) -> usize {
        self.counts().end
    }

    /// The numbers of a vertex's edges, by the offsets among a game's words.
    pub fn edges_of(self, game: &[u32], vertex: usize) -> Range<usize> {
        let at = self.offsets().start + vertex;
        game[at] as usize..game[at + 1] as usize
    }
}

/// A game over its words, which stand as [`Layout`] says.
///
/// In a game that a run built a vertex stands for a state of the model and an item of the formula, and no two vertices
/// have the same two; the count of an edge says how many transitions of the model are behind it.
///
/// The largest priority that a play sees for ever decides it, an even one for Even. A formula holds in its model
/// where Even wins vertex 0 of their game.
#[derive(Clone, Copy, Debug, PartialEq, Eq)]
pub struct Game<'a> {
    words: &'a [u32],
    layout: Layout,
}

impl<'a> Game<'a> {
    /// Looks at the words as the restriction does (51, 52, 53), except that a cut game's waiting vertices pass.
    pub fn of_words(words: &'a [u32]) -> Result<Game<'a>, Refusal> {
        let fault = |number: u32, place: usize| Err(Refusal { number, place: place as u32 });
        let Some((&[vertices, edges, initial], _)) = words.split_first_chunk::<3>() else { return fault(51, 0) };
        let layout = Layout::of(words);
        let in_range = (1..=Room::MOST.vertices).contains(&vertices) && edges <= Room::MOST.edges;
        if !in_range || words.len() != layout.words() {
            return fault(51, 0);
        }
        let game = Game { words, layout };
        if let Some(place) = game.wrong_offset() {
            return fault(52, place);
        }
        if initial >= vertices {
            return fault(53, 2);
        }
        match game.wrong_vertex() {
            Some(place) => fault(53, place),
            None => Ok(game),
        }
    }

    fn wrong_offset(&self) -> Option<usize> {
        let Range { start: first, end } = self.layout.offsets();
        let falls = || (first + 1..end).find(|&at| self.words[at] < self.words[at - 1]);
        match self.words[first] {
            0 => falls().or((self.words[end - 1] != self.edges()).then_some(end - 1)),
            _ => Some(first),
        }
    }

    fn wrong_vertex(&self) -> Option<usize> {
        let owners = &self.words[self.layout.owners()];
        let waits = |v: usize| self.priority(v as u32) == 0 && self.successors(v as u32).is_empty();
        let wrong = |v: &usize| owners[*v] > 2 || owners[*v] == 2 && !waits(*v);
        let owner = (0..owners.len()).find(wrong).map(|v| self.layout.owners().start + v);
        owner.or_else(|| self.layout.targets().find(|&at| self.words[at] >= self.vertices()))
    }

    /// The words, as files and calls have them.
    pub fn words(&self) -> &'a [u32] {
        self.words
    }

    /// How many vertices there are: they are numbered from 0.
    pub fn vertices(&self) -> u32 {
        self.words[0]
    }

    /// How many edges there are.
    pub fn edges(&self) -> u32 {
        self.words[1]
    }

    pub fn initial(&self) -> u32 {
        self.words[2]
    }

    /// Whose vertex it is; nobody's yet if it still waits in a cut game. Panics past the last vertex, as the functions
    /// below do.
    pub fn owner(&self, vertex: u32) -> Option<Player> {
        match self.of_vertex(self.layout.owners(), vertex) {
            0 => Some(Player::Even),
            1 => Some(Player::Odd),
            _ => None,
        }
    }

    pub fn priority(&self, vertex: u32) -> u32 {
        self.of_vertex(self.layout.priorities(), vertex)
    }

    /// The state of the model that the vertex stands for, whether it still waits or not; 0 in games read from text. A
    /// game that is handed over may say any number here, and of the item, too.
    pub fn state(&self, vertex: u32) -> u32 {
        self.of_vertex(self.layout.states(), vertex)
    }

    /// The item of the formula that it stands for: equations are numbered first, from 0, then the subformulas of their
    /// bodies, alike ones once. Vertex 0 of a run's game stands for the initial state and item 0.
    pub fn item(&self, vertex: u32) -> u32 {
        self.of_vertex(self.layout.items(), vertex)
    }

    fn of_vertex(&self, column: Range<usize>, vertex: u32) -> u32 {
        self.words[column][vertex as usize]
    }

    fn edges_of(&self, vertex: u32) -> Range<usize> {
        self.layout.edges_of(self.words, vertex as usize)
    }

    /// The targets of its edges in order; two edges may be equal.
    pub fn successors(&self, vertex: u32) -> &'a [u32] {
        &self.words[self.layout.targets()][self.edges_of(vertex)]
    }

    /// For each of its edges, how many transitions stand behind it: those of the vertex's state that its modality
    /// matches and that lead to the target's state. 0 where the vertex is no modality, for a loop added to a vertex
    /// without targets, and in games read from text; a game that is handed over may say any number.
    pub fn counts(&self, vertex: u32) -> &'a [u32] {
        &self.words[self.layout.counts()][self.edges_of(vertex)]
    }

    /// Whether there are several vertices, and all have state 0 and item 0: those of a run differ, and a game that was
    /// read from text has nothing else.
    pub fn lacks_states(&self) -> bool {
        let both = self.layout.states().start..self.layout.items().end;
        self.vertices() > 1 && self.words[both].iter().all(|&word| word == 0)
    }

    /// The first vertex that a cut game has not settled.
    pub fn first_waiting(&self) -> Option<u32> {
        (0..self.vertices()).find(|&vertex| self.owner(vertex).is_none())
    }

    pub fn is_cut(&self) -> bool {
        self.first_waiting().is_some()
    }
}
