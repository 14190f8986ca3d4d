//! The functions of the library in ordinary Rust, written from the rules alone and for speed: a second
//! opinion in the comparisons and the yardstick of the benchmark. The command does not use it.
//!
//! The walk lives in the lent slices as the library's does; the small tables of a run (label classes,
//! items, sets of matching labels) and what is read from a text are vectors. PGSolver text is written and read a second
//! time on the library's own terms, with nothing allocated.
mod checks;
mod expand;
mod items;
mod pgsolver;
mod pgsolver_lent;
mod walk;

use crate::Layout;
use checks::Fault;

/// A size that no slice reaches stands for "none" in tables of node numbers.
const NONE: u32 = u32::MAX;

/// The largest room for vertices and for edges.
pub const MOST_VERTICES: u32 = 1 << 20;
pub const MOST_EDGES: u32 = 1 << 22;

/// The most nodes of a formula and of a row of action or regular formulas.
const MOST_NODES: usize = 1_024;

fn refused((number, place): Fault) -> [u32; 4] {
    [2, number, place, 0]
}

/// As the library's `hingrezh_translate`.
#[allow(clippy::too_many_arguments)]
pub fn translate(
    labels: &[u32],
    system: &[u32],
    actions: &[u32],
    formula: &[u32],
    vertices: u32,
    edges: u32,
    limit: u32,
    game: &mut [u32],
    work: &mut [u32],
    answer: &mut [u32; 4],
) {
    let checked = checks::room(vertices, edges, game.len(), work.len())
        .and_then(|()| checks::model(labels, system, actions, formula));
    *answer = match checked {
        Err(fault) => refused(fault),
        Ok(ends) => {
            let compiled = items::compile(labels, actions, formula, &ends);
            walk::run(system, &compiled, vertices as usize, edges as usize, limit, game, work)
        }
    };
}

/// As the library's `hingrezh_compute_reachable`.
pub fn compute_reachable(game: &[u32], out: &mut [u32], map: &mut [u32], work: &mut [u32], answer: &mut [u32; 4]) {
    *answer = match checks::game(game).and_then(|()| checks::lent(game, out.len(), map.len(), work.len())) {
        Err(fault) => refused(fault),
        Ok(()) => {
            let reached = number_reachable(game, map, work);
            let edges = write_restricted(game, out, map, &work[..reached]);
            work.fill(0);
            [0, reached as u32, reached as u32, edges as u32]
        }
    };
}

/// As the library's `hingrezh_expand`.
pub fn expand(
    labels: &[u32],
    actions: &[u32],
    regulars: &[u32],
    formula: &[u32],
    out: &mut [u32],
    answer: &mut [u32; 4],
) {
    let expanded = expand::expand(labels, actions, regulars, formula, out);
    *answer = expanded.map_or_else(refused, |words| [0, words as u32, 0, 0]);
}

fn text_answer(written: Result<usize, Fault>) -> [u32; 4] {
    written.map_or_else(refused, |bytes| [0, bytes as u32, 0, 0])
}

fn game_answer(read: Result<(usize, usize), Fault>) -> [u32; 4] {
    read.map_or_else(refused, |(n, m)| [0, n as u32, n as u32, m as u32])
}

/// As the library's `hingrezh_write_pgsolver`.
pub fn write_pgsolver(game: &[u32], text: &mut [u8], answer: &mut [u32; 4]) {
    *answer = text_answer(pgsolver::write(game, text));
}

/// As the library's `hingrezh_read_pgsolver`.
pub fn read_pgsolver(text: &[u8], vertices: u32, edges: u32, game: &mut [u32], answer: &mut [u32; 4]) {
    *answer = game_answer(pgsolver::read(text, vertices, edges, game));
}

/// As `write_pgsolver`, with nothing allocated.
pub fn write_pgsolver_lent(game: &[u32], text: &mut [u8], answer: &mut [u32; 4]) {
    *answer = text_answer(pgsolver_lent::write(game, text));
}

/// As `read_pgsolver`, with nothing allocated.
pub fn read_pgsolver_lent(text: &[u8], vertices: u32, edges: u32, game: &mut [u32], answer: &mut [u32; 4]) {
    *answer = game_answer(pgsolver_lent::read(text, vertices, edges, game));
}

/// The edges of a vertex.
fn targets(game: &[u32], vertex: usize) -> &[u32] {
    let layout = Layout::of(game);
    &game[layout.targets()][layout.edges_of(game, vertex)]
}

/// Numbers breadth first into `map`; `queue` then begins with the vertices reached, in order.
fn number_reachable(game: &[u32], map: &mut [u32], queue: &mut [u32]) -> usize {
    map.fill(NONE);
    map[game[2] as usize] = 0;
    queue[0] = game[2];
    let (mut reached, mut at) = (1, 0);
    while at < reached {
        for &target in targets(game, queue[at] as usize) {
            if map[target as usize] == NONE {
                map[target as usize] = reached as u32;
                queue[reached] = target;
                reached += 1;
            }
        }
        at += 1;
    }
    reached
}

/// The transitions behind each edge of a vertex.
fn counts(game: &[u32], vertex: usize) -> &[u32] {
    let layout = Layout::of(game);
    &game[layout.counts()][layout.edges_of(game, vertex)]
}

/// Writes the game on the vertices of `order`, and gives its number of edges.
fn write_restricted(game: &[u32], out: &mut [u32], map: &[u32], order: &[u32]) -> usize {
    let edges = order.iter().map(|&old| targets(game, old as usize).len()).sum();
    let (from, to) = (Layout::of(game), Layout { vertices: order.len(), edges });
    out[..3].copy_from_slice(&[order.len() as u32, edges as u32, 0]);
    let new_columns = out[to.vertex_columns()].chunks_exact_mut(order.len());
    for (new, old) in new_columns.zip(game[from.vertex_columns()].chunks_exact(from.vertices)) {
        new.iter_mut().zip(order).for_each(|(word, &vertex)| *word = old[vertex as usize]);
    }
    let (offsets, mut first, mut end) = (to.offsets(), 0, to.targets().start);
    for (at, &old) in offsets.clone().zip(order) {
        out[at] = first;
        let targets = targets(game, old as usize);
        out[end..][..targets.len()].iter_mut().zip(targets).for_each(|(word, &target)| *word = map[target as usize]);
        first += targets.len() as u32;
        end += targets.len();
    }
    out[offsets.end - 1] = first;
    for &old in order {
        let counts = counts(game, old as usize);
        out[end..end + counts.len()].copy_from_slice(counts);
        end += counts.len();
    }
    out[end..].fill(0);
    edges
}
