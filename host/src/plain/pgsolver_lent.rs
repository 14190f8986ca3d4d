//! PGSolver text on the library's own terms: nothing is allocated, and what is refused is found out before the first
//! byte or word is written. Beside the lent slices there is one bitmap on the stack. So a text is read more than once:
//! for its form and its numbers; for its different successors, if there may be too many; and for the game.
use super::checks::{self, Fault, unless};
use super::pgsolver::{Reader, Writer, digits};
use super::targets;
use crate::{Layout, game_words};

/// So many numbers have a bit.
const NUMBERS: usize = 1 << 20;

struct Bitmap {
    words: [u32; NUMBERS / 32],
}

impl Bitmap {
    fn empty() -> Bitmap {
        Bitmap { words: [0; NUMBERS / 32] }
    }

    /// Marks a number; was it not marked before?
    fn meet(&mut self, number: u32) -> bool {
        let (word, bit) = (&mut self.words[number as usize / 32], 1 << (number % 32));
        let new = *word & bit == 0;
        *word |= bit;
        new
    }

    /// Empties it; only these numbers are marked.
    fn wipe(&mut self, numbers: &[u32]) {
        if numbers.len() > self.words.len() {
            self.words.fill(0);
        } else {
            numbers.iter().for_each(|&number| self.words[number as usize / 32] = 0);
        }
    }
}

// ---- writing

/// The number of bytes written.
pub fn write(game: &[u32], text: &mut [u8]) -> Result<usize, Fault> {
    checks::game(game)?;
    let n = game[0] as usize;
    unless((0..n).all(|vertex| !targets(game, vertex).is_empty()), 98, 0)?;
    let mut met = Bitmap::empty();
    let length = text_length(game, &mut met);
    unless(length <= text.len(), 2, 0)?;
    let (front, past) = text.split_at_mut(length);
    write_text(game, &mut met, front);
    past.fill(0);
    Ok(length)
}

fn text_length(game: &[u32], met: &mut Bitmap) -> usize {
    let mut length = "parity ;\n".len() + digits(game[0] - 1);
    for (vertex, &priority) in game[Layout::of(game).priorities()].iter().enumerate() {
        // Two spaces, an owner, a semicolon and a newline; before each successor there is a space or a comma.
        length += digits(vertex as u32) + digits(priority) + 5;
        let list = targets(game, vertex);
        length += list.iter().map(|&to| if met.meet(to) { digits(to) + 1 } else { 0 }).sum::<usize>();
        met.wipe(list);
    }
    length
}

fn write_text(game: &[u32], met: &mut Bitmap, text: &mut [u8]) {
    let layout = Layout::of(game);
    let [owners, priorities] = [layout.owners(), layout.priorities()].map(|column| &game[column]);
    let mut writer = Writer { text, at: 0 };
    writer.bytes(b"parity ");
    writer.number(game[0] - 1);
    writer.bytes(b";\n");
    for vertex in 0..layout.vertices {
        writer.number(vertex as u32);
        writer.bytes(b" ");
        writer.number(priorities[vertex]);
        writer.bytes(if owners[vertex] == 0 { b" 0" } else { b" 1" });
        let list = targets(game, vertex);
        let mut before = b" ";
        for &to in list {
            if met.meet(to) {
                writer.bytes(before);
                writer.number(to);
                before = b",";
            }
        }
        met.wipe(list);
        writer.bytes(b";\n");
    }
}

// ---- reading

/// The numbers of vertices and edges of the game that was read.
pub fn read(text: &[u8], vertices: u32, edges: u32, game: &mut [u32]) -> Result<(usize, usize), Fault> {
    checks::sizes(vertices, edges)?;
    unless(game.len() == game_words(vertices as usize, edges as usize), 2, 0)?;
    let mut met = Bitmap::empty();
    let Some(found) = survey(text, &mut met) else { return Err((91, 0)) };
    unless(found.numbered(&mut met), 92, 0)?;
    met.words.fill(0);
    let fits = found.highest < vertices as u64 && found.priority <= u32::MAX as u64;
    unless(fits && (found.listed <= edges as usize || found.different(&mut met) <= edges as usize), 93, 0)?;
    let n = found.highest as usize + 1;
    let m = if found.ordered { found.in_order(n, &mut met, game) } else { found.by_places(n, &mut met, game) };
    let layout = Layout { vertices: n, edges: m };
    game[layout.states().start..layout.items().end].fill(0);
    game[layout.offsets().end - 1] = m as u32;
    game[..3].copy_from_slice(&[n as u32, m as u32, 0]);
    game[layout.targets().end..].fill(0);
    Ok((n, m))
}

/// What a text of the form has: `lines` begins with its first line.
struct Found<'a> {
    lines: Reader<'a>,
    highest: u64,
    count: u64,
    /// The largest number and the largest priority on its lines, and how many successors these list.
    top: u64,
    priority: u64,
    listed: usize,
    ordered: bool,
    /// No number below `NUMBERS` is given twice.
    apart: bool,
}

/// `None` if the text is not of the form.
fn survey<'a>(text: &'a [u8], met: &mut Bitmap) -> Option<Found<'a>> {
    let mut reader = Reader { rest: text };
    let highest = reader.header()?;
    let (count, top, priority, listed) = (0, 0, 0, 0);
    let mut found = Found { lines: reader, highest, count, top, priority, listed, ordered: true, apart: true };
    while !reader.rest.is_empty() {
        let (number, priority, _) = reader.fields()?;
        found.ordered &= number == found.count;
        found.apart &= number >= NUMBERS as u64 || met.meet(number as u32);
        found.count += 1;
        found.priority = found.priority.max(priority);
        found.top = found.top.max(number);
        let after = loop {
            found.top = found.top.max(reader.number()?);
            found.listed += 1;
            match reader.byte()? {
                b',' => {}
                after @ (b';' | b' ') => break after,
                _ => return None,
            }
        };
        reader.line_end(after)?;
    }
    Some(found)
}

/// Behind the next newline.
fn skip_line(reader: &mut Reader) {
    let end = reader.rest.iter().position(|&byte| byte == b'\n').map_or(reader.rest.len(), |at| at + 1);
    reader.rest = &reader.rest[end..];
}

/// Of a list: each number, with whether it is new. Every number is one of a vertex.
fn each_successor(reader: &mut Reader, met: &mut Bitmap, mut with: impl FnMut(u32, bool)) {
    while let Some(to) = reader.number() {
        with(to as u32, met.meet(to as u32));
        if reader.byte() != Some(b',') {
            break;
        }
    }
}

impl Found<'_> {
    /// Is each vertex up to the highest given once, and no other number there?
    fn numbered(&self, met: &mut Bitmap) -> bool {
        let fine = self.count == self.highest + 1 && self.top <= self.highest && self.apart;
        fine && (self.ordered || (1..=self.highest as usize / NUMBERS).all(|window| self.apart_in(window, met)))
    }

    /// Are the numbers of one stretch of `NUMBERS` numbers all different?
    fn apart_in(&self, window: usize, met: &mut Bitmap) -> bool {
        met.words.fill(0);
        let mut reader = self.lines;
        while !reader.rest.is_empty() {
            let number = reader.number().unwrap_or(0) as usize;
            if number / NUMBERS == window && !met.meet((number % NUMBERS) as u32) {
                return false;
            }
            skip_line(&mut reader);
        }
        true
    }

    /// How many edges the game has.
    fn different(&self, met: &mut Bitmap) -> usize {
        let (mut reader, mut edges) = (self.lines, 0);
        while reader.fields().is_some() {
            let (mut again, mut count) = (reader, 0);
            each_successor(&mut reader, met, |_, new| {
                edges += new as usize;
                count += 1;
            });
            if count > met.words.len() {
                met.words.fill(0);
            } else {
                for _ in 0..count {
                    met.words[again.number().unwrap_or(0) as usize / 32] = 0;
                    again.byte();
                }
            }
            skip_line(&mut reader);
        }
        edges
    }

    /// Writes the vertices and their edges; the lines stand in the order of their numbers. How many edges there are.
    fn in_order(&self, n: usize, met: &mut Bitmap, game: &mut [u32]) -> usize {
        let (mut reader, mut edges) = (self.lines, 0);
        for vertex in 0..n {
            edges = put_vertex(&mut reader, n, vertex, edges, met, game);
            skip_line(&mut reader);
        }
        edges
    }

    /// The same, whatever the order: where each line begins is kept where its owner and priority will stand.
    fn by_places(&self, n: usize, met: &mut Bitmap, game: &mut [u32]) -> usize {
        let lines = self.lines.rest;
        let mut reader = self.lines;
        let [owners, priorities] = vertex_columns(n);
        while !reader.rest.is_empty() {
            let place = lines.len() - reader.rest.len();
            let vertex = reader.number().unwrap_or(0) as usize;
            game[owners + vertex] = place as u32;
            game[priorities + vertex] = (place >> 32) as u32;
            skip_line(&mut reader);
        }
        let mut edges = 0;
        for vertex in 0..n {
            let place = game[owners + vertex] as usize + ((game[priorities + vertex] as usize) << 32);
            edges = put_vertex(&mut Reader { rest: &lines[place..] }, n, vertex, edges, met, game);
        }
        edges
    }
}

/// Where owners and priorities of so many vertices begin; that goes by the vertices alone, as where the offsets do.
fn vertex_columns(n: usize) -> [usize; 2] {
    let layout = Layout { vertices: n, edges: 0 };
    [layout.owners().start, layout.priorities().start]
}

/// Writes a vertex from its line; `edges` are there before. How many there are then.
fn put_vertex(reader: &mut Reader, n: usize, vertex: usize, edges: usize, met: &mut Bitmap, game: &mut [u32]) -> usize {
    let offsets = Layout { vertices: n, edges: 0 }.offsets();
    let (columns, targets) = game.split_at_mut(offsets.end);
    let Some((_, priority, owner)) = reader.fields() else { return edges };
    let [owners, priorities] = vertex_columns(n);
    columns[owners + vertex] = owner;
    columns[priorities + vertex] = priority as u32;
    columns[offsets.start + vertex] = edges as u32;
    let mut end = edges;
    each_successor(reader, met, |to, new| {
        if new {
            targets[end] = to;
            end += 1;
        }
    });
    met.wipe(&targets[edges..end]);
    end
}
