//! Games as PGSolver text, by the proved library: slices of the right lengths for both calls.
use crate::model::zeroed;
use crate::{Answer, Built, Game, Layout, NoMemory, Refusal, Room, library};

/// A game's text, without bytes past its end; empty after a refusal.
#[derive(Clone, Debug, PartialEq, Eq)]
pub struct Written {
    pub answer: Answer,
    pub text: Vec<u8>,
}

/// Writes a game as PGSolver text with the proved library: of equal edges the first stands there; where the game begins
/// what its vertices stand for and how many transitions are behind an edge is not said. It panics where there is no
/// memory for the text.
pub fn write_pgsolver(game: &[u32]) -> Written {
    try_write_pgsolver(game).unwrap_or_else(|error| panic!("{error}"))
}

pub fn try_write_pgsolver(game: &[u32]) -> Result<Written, NoMemory> {
    let most = most_bytes(game);
    let mut text = Vec::new();
    text.try_reserve_exact(most).map_err(|_| NoMemory { bytes: most as u64 })?;
    text.resize(most, 0);
    let answer = library::write_pgsolver(game, &mut text);
    text.truncate(bytes_written(&answer));
    Ok(Written { answer, text })
}

/// Reads a game from PGSolver text with the proved library; it begins at vertex 0, and its states, items and counts are
/// 0. It panics where there is no memory for the room.
pub fn read_pgsolver(text: &[u8], room: Room) -> Built {
    try_read_pgsolver(text, room).unwrap_or_else(|error| panic!("{error}"))
}

pub fn try_read_pgsolver(text: &[u8], room: Room) -> Result<Built, NoMemory> {
    let mut game = zeroed(room.lengths().0)?;
    let answer = library::read_pgsolver(text, room.vertices, room.edges, &mut game);
    game.truncate(answer.game_words().unwrap_or(0));
    Ok(Built { answer, game })
}

impl Room {
    /// Room for whatever a text says, as far as there can be: of a text of the form every line but the first is a
    /// vertex's, and every successor ends with a comma or is its line's last. Commas in names count as well.
    pub fn of_text(text: &[u8]) -> Room {
        let count = |wanted: u8| text.iter().filter(|&&byte| byte == wanted).count();
        let vertices = count(b'\n').saturating_sub(1);
        let bounded = |count: usize, most: u32| count.clamp(1, most as usize) as u32;
        let edges = vertices + count(b',');
        Room { vertices: bounded(vertices, Room::MOST.vertices), edges: bounded(edges, Room::MOST.edges) }
    }
}

impl Game<'_> {
    /// The game as PGSolver text; a cut game is refused (53), and so is one with a vertex without successors (98).
    pub fn to_pgsolver(&self) -> Result<Vec<u8>, Refusal> {
        let Written { answer, text } = write_pgsolver(self.words());
        match answer {
            Answer::Refused(refusal) => Err(refusal),
            _ => Ok(text),
        }
    }
}

/// How many bytes a text has, by its answer.
pub fn bytes_written(answer: &Answer) -> usize {
    match *answer {
        Answer::Done { steps, .. } => steps as usize,
        _ => 0,
    }
}

/// No fewer bytes than the text of a game has; 0 for words whose number is wrong, which are refused anyway. Every
/// vertex number is taken to be as long as the highest, and every priority as the largest.
pub fn most_bytes(game: &[u32]) -> usize {
    if game.len() < 3 || game.len() != Layout::of(game).words() {
        return 0;
    }
    let layout = Layout::of(game);
    let Layout { vertices: n, edges: m } = layout;
    let vertex = digits(game[0].saturating_sub(1));
    let priority = digits(game[layout.priorities()].iter().copied().max().unwrap_or(0));
    // The header has nine bytes beside its number; a line three spaces, the owner, the semicolon and the newline, and
    // a comma less than successors.
    9 + vertex + n * (vertex + priority + 5) + m * (vertex + 1)
}

fn digits(number: u32) -> usize {
    number.checked_ilog10().map_or(1, |power| power as usize + 1)
}

#[cfg(test)]
mod tests {
    use super::{most_bytes, write_pgsolver};
    use crate::Room;

    /// A vertex leads to the highest ones, so many as there are edges for.
    fn wide(n: u32, m: u32) -> Vec<u32> {
        let each = |vertex: u32| m / n + (vertex < m % n) as u32;
        let ends = (0..n).scan(0, |end, vertex| Some(std::mem::replace(end, *end + each(vertex))));
        let targets = (0..n).flat_map(|vertex| (0..each(vertex)).map(|at| n - 1 - at));
        let head = [n, m, 0].into_iter().chain((0..n).map(|_| 1)).chain((0..3 * n).map(|_| u32::MAX));
        head.chain(ends).chain([m]).chain(targets).chain((0..m).map(|_| 0)).collect()
    }

    /// A text is no longer than what is lent for it, and that is no longer than the work slice of the least room.
    #[test]
    fn lent_bytes() {
        for (n, m) in [(1, 1), (2, 2), (2, 4), (9, 9), (10, 10), (11, 30), (100, 400), (100_001, 400_000)] {
            let game = wide(n, m);
            let most = most_bytes(&game);
            let text = write_pgsolver(&game).text;
            assert!(!text.is_empty() && text.len() <= most, "{n} {m}");
            assert!(most <= 4 * Room { vertices: n, edges: m }.lengths().1, "{n} {m}");
        }
        assert_eq!(most_bytes(&wide(1, 1)), write_pgsolver(&wide(1, 1)).text.len());
    }
}
