//! What a run must answer with any room and step limit, read off the finished game alone.
//!
//! The walk numbers vertices as it meets them and settles the one numbered last, so the finished game's numbers and
//! edges say in which order it was made. This is a second way to cut games, independent of the two implementations;
//! a vertex that is settled has the counts that it has in the finished game, and every one its state and item.
use crate::Layout;
use std::ops::Range;

/// The answer's words, and the game's without those past its end.
#[derive(Clone, Debug, PartialEq, Eq)]
pub struct Expected {
    pub answer: [u32; 4],
    pub game: Vec<u32>,
}

fn targets(game: &[u32], vertex: usize) -> &[u32] {
    let layout = Layout::of(game);
    &game[layout.targets()][layout.edges_of(game, vertex)]
}

/// `None` if the game's numbers are not those of a walk from vertex 0.
pub fn expected(game: &[u32], vertices: u32, edges: u32, limit: u32) -> Option<Expected> {
    let n = game[0] as usize;
    let mut settled = vec![false; n];
    let mut waiting = vec![0];
    let (mut steps, mut known, mut made) = (0, 1, 0);
    while steps < limit
        && let Some(vertex) = waiting.pop()
    {
        for &target in targets(game, vertex) {
            if target as usize > known {
                return None;
            }
            if target as usize == known {
                known += 1;
                waiting.push(target as usize);
            }
        }
        made += targets(game, vertex).len();
        settled[vertex] = true;
        steps += 1;
        if known > vertices as usize || made > edges as usize {
            return Some(Expected { answer: [2, 60, 0, 0], game: Vec::new() });
        }
    }
    if waiting.is_empty() && known != n {
        return None;
    }
    let answer = [u32::from(!waiting.is_empty()), steps, known as u32, made as u32];
    Some(Expected { answer, game: known_part(game, known, &settled) })
}

/// The game on the first `known` vertices, those not settled with owner 2, priority 0 and without edges. What they
/// stand for is known of all of them.
fn known_part(game: &[u32], known: usize, settled: &[bool]) -> Vec<u32> {
    let layout = Layout::of(game);
    let shown = |column: Range<usize>, waiting: u32| {
        let words = game[column].iter().zip(settled).take(known);
        words.map(move |(&word, &settled)| if settled { word } else { waiting })
    };
    let mut words = vec![known as u32, 0, 0];
    words.extend(shown(layout.owners(), 2));
    words.extend(shown(layout.priorities(), 0));
    for column in [layout.states(), layout.items()] {
        words.extend(&game[column][..known]);
    }
    let (mut edges, mut counts): (Vec<u32>, Vec<u32>) = (Vec::new(), Vec::new());
    for (vertex, settled) in settled[..known].iter().enumerate() {
        words.push(edges.len() as u32);
        if *settled {
            edges.extend(targets(game, vertex));
            counts.extend(&game[layout.counts()][layout.edges_of(game, vertex)]);
        }
    }
    words.push(edges.len() as u32);
    words[1] = edges.len() as u32;
    words.extend(edges);
    words.extend(counts);
    words
}
