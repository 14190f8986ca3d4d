//! PGSolver text: a game written as text, and a text read as a game. The text is read once, from the left, into
//! vectors; then its vertices are judged and put in order.
use super::checks::{self, Fault, unless};
use super::{NONE, targets};
use crate::{Layout, game_words};

/// A number in a text of this size or above counts as this size. What numbers are compared with is smaller: priorities
/// have 32 bits, and a highest vertex beyond 32 bits is refused, since no text has so many lines.
const LARGE: u64 = 1 << 40;

/// Up to so many successors are compared with each other; beyond, each vertex remembers where it was met last.
const FEW: usize = 16;

// ---- writing

/// The number of bytes written.
pub fn write(game: &[u32], text: &mut [u8]) -> Result<usize, Fault> {
    checks::game(game)?;
    let n = game[0] as usize;
    unless((0..n).all(|vertex| !targets(game, vertex).is_empty()), 98, 0)?;
    let (mut successors, mut ends) = (Vec::with_capacity(game[1] as usize), Vec::with_capacity(n));
    let mut last_met = vec![NONE; n];
    for vertex in 0..n {
        append_once(&mut successors, targets(game, vertex), vertex as u32, &mut last_met);
        ends.push(successors.len());
    }
    let length = text_length(game, &successors);
    unless(length <= text.len(), 2, 0)?;
    let (front, past) = text.split_at_mut(length);
    write_text(game, &successors, &ends, front);
    past.fill(0);
    Ok(length)
}

/// Appends the different numbers of a list, in order. `list` is this list's own number for `last_met`.
fn append_once(to: &mut Vec<u32>, numbers: &[u32], list: u32, last_met: &mut [u32]) {
    let from = to.len();
    for &number in numbers {
        let new = if numbers.len() <= FEW {
            !to[from..].contains(&number)
        } else {
            std::mem::replace(&mut last_met[number as usize], list) != list
        };
        if new {
            to.push(number);
        }
    }
}

pub fn digits(number: u32) -> usize {
    number.checked_ilog10().map_or(1, |log| log as usize + 1)
}

/// A line has its numbers, an owner's digit, three spaces and what ends it: a semicolon and a newline. Each successor
/// but a line's first has a comma before it.
fn text_length(game: &[u32], successors: &[u32]) -> usize {
    let n = game[0] as usize;
    let header = "parity ;\n".len() + digits(game[0] - 1);
    let numbers: usize = (0..game[0]).map(digits).sum();
    let priorities: usize = game[Layout::of(game).priorities()].iter().map(|&priority| digits(priority)).sum();
    let lists: usize = successors.iter().map(|&successor| digits(successor)).sum();
    header + numbers + priorities + lists + 6 * n + (successors.len() - n)
}

/// The text's bytes so far, and the place of the next one.
pub struct Writer<'a> {
    pub text: &'a mut [u8],
    pub at: usize,
}

impl Writer<'_> {
    pub fn bytes(&mut self, bytes: &[u8]) {
        self.text[self.at..self.at + bytes.len()].copy_from_slice(bytes);
        self.at += bytes.len();
    }

    pub fn number(&mut self, mut number: u32) {
        let end = self.at + digits(number);
        for byte in self.text[self.at..end].iter_mut().rev() {
            *byte = b'0' + (number % 10) as u8;
            number /= 10;
        }
        self.at = end;
    }

    fn list(&mut self, successors: &[u32]) {
        for (i, &successor) in successors.iter().enumerate() {
            if i > 0 {
                self.bytes(b",");
            }
            self.number(successor);
        }
    }
}

fn write_text(game: &[u32], successors: &[u32], ends: &[usize], text: &mut [u8]) {
    let layout = Layout::of(game);
    let [owners, priorities] = [layout.owners(), layout.priorities()].map(|column| &game[column]);
    let mut writer = Writer { text, at: 0 };
    writer.bytes(b"parity ");
    writer.number(game[0] - 1);
    writer.bytes(b";\n");
    let mut from = 0;
    for (vertex, &end) in ends.iter().enumerate() {
        writer.number(vertex as u32);
        writer.bytes(b" ");
        writer.number(priorities[vertex]);
        writer.bytes(if owners[vertex] == 0 { b" 0 " } else { b" 1 " });
        writer.list(&successors[from..end]);
        writer.bytes(b";\n");
        from = end;
    }
}

// ---- reading

/// The numbers of vertices and edges of the game that was read.
pub fn read(text: &[u8], vertices: u32, edges: u32, game: &mut [u32]) -> Result<(usize, usize), Fault> {
    checks::sizes(vertices, edges)?;
    unless(game.len() == game_words(vertices as usize, edges as usize), 2, 0)?;
    let Some(mut parsed) = parse(text) else { return Err((91, 0)) };
    let Some(places) = parsed.places() else { return Err((92, 0)) };
    parsed.drop_repeats();
    let fits = places.len() <= vertices as usize && parsed.successors.len() <= edges as usize;
    unless(fits && parsed.lines.iter().all(|line| line.priority <= u32::MAX as u64), 93, 0)?;
    parsed.assemble(&places, game);
    Ok((places.len(), parsed.successors.len()))
}

struct Line {
    number: u64,
    priority: u64,
    owner: u32,
    /// Where its successors end; they begin where those of the line before end.
    end: usize,
}

struct Parsed {
    highest: u64,
    lines: Vec<Line>,
    successors: Vec<u32>,
}

/// The rest of the text.
#[derive(Clone, Copy)]
pub struct Reader<'a> {
    pub rest: &'a [u8],
}

/// `None` if the text is not of the form.
fn parse(text: &[u8]) -> Option<Parsed> {
    let mut reader = Reader { rest: text };
    let highest = reader.header()?;
    let mut parsed = Parsed { highest, lines: Vec::new(), successors: Vec::new() };
    while !reader.rest.is_empty() {
        let line = reader.line(&mut parsed.successors)?;
        parsed.lines.push(line);
    }
    Some(parsed)
}

impl Reader<'_> {
    pub fn bytes(&mut self, bytes: &[u8]) -> Option<()> {
        self.rest = self.rest.strip_prefix(bytes)?;
        Some(())
    }

    pub fn byte(&mut self) -> Option<u8> {
        let (&byte, rest) = self.rest.split_first()?;
        self.rest = rest;
        Some(byte)
    }

    /// A zero is a number by itself and begins no other.
    pub fn number(&mut self) -> Option<u64> {
        let (mut number, mut count) = (0, 0);
        while let Some(digit @ b'0'..=b'9') = self.rest.get(count) {
            number = (10 * number + (digit - b'0') as u64).min(LARGE);
            count += 1;
        }
        let fine = count > 0 && (count == 1 || self.rest[0] != b'0');
        self.rest = &self.rest[count..];
        fine.then_some(number)
    }

    /// The highest vertex number.
    pub fn header(&mut self) -> Option<u64> {
        self.bytes(b"parity ")?;
        let highest = self.number()?;
        self.bytes(b";\n")?;
        Some(highest)
    }

    /// A line's number, priority and owner.
    pub fn fields(&mut self) -> Option<(u64, u64, u32)> {
        let number = self.number()?;
        self.bytes(b" ")?;
        let priority = self.number()?;
        self.bytes(b" ")?;
        let owner = match self.byte()? {
            b'0' => 0,
            b'1' => 1,
            _ => return None,
        };
        self.bytes(b" ")?;
        Some((number, priority, owner))
    }

    /// What ends a line behind the byte `after` its successors, a semicolon or the space before a name.
    pub fn line_end(&mut self, after: u8) -> Option<()> {
        if after == b' ' {
            self.name()?;
        }
        self.bytes(b"\n")
    }

    fn line(&mut self, successors: &mut Vec<u32>) -> Option<Line> {
        let (number, priority, owner) = self.fields()?;
        let after = self.list(successors)?;
        self.line_end(after)?;
        Some(Line { number, priority, owner, end: successors.len() })
    }

    /// The successors, and the byte behind them: a semicolon, or the space before a name.
    fn list(&mut self, successors: &mut Vec<u32>) -> Option<u8> {
        loop {
            // What doesn't fit is above the highest number of any text that has all of its lines.
            successors.push(self.number()?.min(NONE as u64) as u32);
            match self.byte()? {
                b',' => {}
                after @ (b';' | b' ') => return Some(after),
                _ => return None,
            }
        }
    }

    /// A name in quotes and the semicolon behind it.
    pub fn name(&mut self) -> Option<()> {
        self.bytes(b"\"")?;
        let end = self.rest.iter().position(|&byte| byte == b'"' || byte == b'\n')?;
        self.rest = &self.rest[end..];
        self.bytes(b"\";")
    }
}

impl Parsed {
    /// The line of each vertex. `None` if a vertex is missing or given twice, or a number is above the highest.
    fn places(&self) -> Option<Vec<u32>> {
        if self.lines.len() as u64 != self.highest + 1 {
            return None;
        }
        let mut places = vec![NONE; self.lines.len()];
        for (i, line) in self.lines.iter().enumerate() {
            let place = places.get_mut(line.number as usize).filter(|place| **place == NONE)?;
            *place = i as u32;
        }
        self.successors.iter().all(|&successor| successor as u64 <= self.highest).then_some(places)
    }

    /// Each successor of a line once, where it appears first.
    fn drop_repeats(&mut self) {
        let all = std::mem::take(&mut self.successors);
        self.successors.reserve(all.len());
        let mut last_met = vec![NONE; self.lines.len()];
        let mut from = 0;
        for (i, line) in self.lines.iter_mut().enumerate() {
            append_once(&mut self.successors, &all[from..line.end], i as u32, &mut last_met);
            from = line.end;
            line.end = self.successors.len();
        }
    }

    /// Writes the game; every priority fits a word.
    fn assemble(&self, places: &[u32], game: &mut [u32]) {
        let layout = Layout { vertices: places.len(), edges: self.successors.len() };
        let (owners, priorities) = (layout.owners().start, layout.priorities().start);
        let (offsets, targets) = (layout.offsets(), layout.targets());
        game[..3].copy_from_slice(&[places.len() as u32, self.successors.len() as u32, 0]);
        game[layout.states().start..layout.items().end].fill(0);
        let mut edges = 0;
        for (vertex, &place) in places.iter().enumerate() {
            let place = place as usize;
            let line = &self.lines[place];
            let from = if place == 0 { 0 } else { self.lines[place - 1].end };
            let successors = &self.successors[from..line.end];
            game[owners + vertex] = line.owner;
            game[priorities + vertex] = line.priority as u32;
            game[offsets.start + vertex] = edges as u32;
            game[targets.start + edges..][..successors.len()].copy_from_slice(successors);
            edges += successors.len();
        }
        game[offsets.end - 1] = edges as u32;
        game[targets.end..].fill(0);
    }
}
