//! Games as the thin program's lines.
use crate::{Answer, Layout};
use std::io::{Result, Write};

/// The answer's line, then for each vertex its number, owner, priority and targets. A waiting vertex of a cut game
/// has owner 2 and no targets.
pub fn game_lines(out: &mut impl Write, answer: &Answer, game: &[u32]) -> Result<()> {
    lines(out, answer, game, |out, target, _| write!(out, " {target}"))
}

/// The same with the transitions behind the edges: a target is followed by `*` and its count where that is above 0, as
/// in `2*3` for three transitions to vertex 2. Without each `*` and the digits behind it the lines are those above.
pub fn counted_lines(out: &mut impl Write, answer: &Answer, game: &[u32]) -> Result<()> {
    lines(out, answer, game, |out, target, count| match count {
        0 => write!(out, " {target}"),
        _ => write!(out, " {target}*{count}"),
    })
}

fn lines<W: Write>(
    out: &mut W,
    answer: &Answer,
    game: &[u32],
    edge: impl Fn(&mut W, u32, u32) -> Result<()>,
) -> Result<()> {
    writeln!(out, "{answer}")?;
    if answer.game_words().is_none() {
        return Ok(());
    }
    let layout = Layout::of(game);
    let [owners, priorities] = [layout.owners(), layout.priorities()].map(|column| &game[column]);
    let [targets, counts] = [layout.targets(), layout.counts()].map(|column| &game[column]);
    for vertex in 0..layout.vertices {
        write!(out, "{vertex} {} {}", owners[vertex], priorities[vertex])?;
        for at in layout.edges_of(game, vertex) {
            edge(out, targets[at], counts[at])?;
        }
        writeln!(out)?;
    }
    Ok(())
}

/// `map` and for each old vertex the new one, 4294967295 if it is not reached.
pub fn map_line(out: &mut impl Write, map: &[u32]) -> Result<()> {
    write!(out, "map")?;
    for vertex in map {
        write!(out, " {vertex}")?;
    }
    writeln!(out)
}
