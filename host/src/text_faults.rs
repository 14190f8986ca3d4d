//! Refusals of PGSolver text told by the line: 91 to 93 name no place. The library has judged the text by then; what
//! reads it here finds something to say and decides nothing. Lines and columns are counted from 1, as editors do.
use crate::{Refusal, Room};

impl Refusal {
    /// What is wrong with a text, or with the room for its game, that was refused so.
    pub fn in_text(&self, text: &[u8], room: Room) -> String {
        let found = match self.number {
            1 => Some(self.in_room(room)),
            91 => formless(text),
            92 => misnumbered(text),
            93 => Some(too_large(text, room)),
            _ => None,
        };
        found.unwrap_or_else(|| self.what().to_string())
    }
}

/// What should stand where something else does.
type Expected = &'static str;

/// A place in the text.
struct Cursor<'a> {
    text: &'a [u8],
    at: usize,
    line: usize,
}

/// What a vertex's line says, names aside; numbers beyond 64 bits count as the largest.
struct VertexLine {
    vertex: u64,
    priority: u64,
    largest_successor: u64,
}

impl Cursor<'_> {
    fn of(text: &[u8]) -> Cursor<'_> {
        Cursor { text, at: 0, line: 1 }
    }

    fn ended(&self) -> bool {
        self.at >= self.text.len()
    }

    fn take(&mut self, token: &str, expected: Expected) -> Result<(), Expected> {
        let held = self.text[self.at..].starts_with(token.as_bytes());
        self.at += if held { token.len() } else { 0 };
        if held { Ok(()) } else { Err(expected) }
    }

    fn takes(&mut self, token: &str) -> bool {
        self.take(token, "").is_ok()
    }

    fn end_line(&mut self, expected: Expected) -> Result<(), Expected> {
        self.take(";", expected)?;
        self.take("\n", "the end of the line")?;
        self.line += 1;
        Ok(())
    }

    fn number(&mut self, expected: Expected) -> Result<u64, Expected> {
        let rest = &self.text[self.at..];
        let digits = &rest[..rest.iter().take_while(|byte| byte.is_ascii_digit()).count()];
        match digits {
            [] => Err(expected),
            [b'0', _, ..] => Err("a number without leading zeros"),
            _ => {
                self.at += digits.len();
                let add = |sum: u64, digit: &u8| sum.saturating_mul(10).saturating_add((digit - b'0') as u64);
                Ok(digits.iter().fold(0, add))
            }
        }
    }

    fn header(&mut self) -> Result<u64, Expected> {
        self.take("parity ", "the header `parity`, the highest vertex and a semicolon")?;
        let highest = self.number("the highest vertex")?;
        self.end_line("a semicolon").map(|()| highest)
    }

    fn vertex_line(&mut self) -> Result<VertexLine, Expected> {
        let vertex = self.number("the number of a vertex")?;
        self.take(" ", "a space and the priority")?;
        let priority = self.number("a priority")?;
        self.take(" ", "a space and the owner")?;
        if !self.takes("0 ") && !self.takes("1 ") {
            return Err("the owner, 0 or 1, and a space");
        }
        let largest_successor = self.successors()?;
        self.name()?;
        self.end_line("a comma, a space and a name, or a semicolon")?;
        Ok(VertexLine { vertex, priority, largest_successor })
    }

    fn successors(&mut self) -> Result<u64, Expected> {
        let mut largest = self.number("a successor")?;
        while self.takes(",") {
            largest = largest.max(self.number("a successor")?);
        }
        Ok(largest)
    }

    fn name(&mut self) -> Result<(), Expected> {
        if !self.takes(" ") {
            return Ok(());
        }
        self.take("\"", "a name in double quotes")?;
        let ends = |byte: &&u8| matches!(byte, b'"' | b'\n');
        self.at += self.text[self.at..].iter().take_while(|byte| !ends(byte)).count();
        self.take("\"", "the double quote that ends the name")
    }

    /// What stands at the place, in words.
    fn found(&self) -> String {
        match self.text.get(self.at) {
            None => "the end of the text".to_string(),
            Some(b'\n') => "the end of the line".to_string(),
            Some(byte) if byte.is_ascii() => format!("{:?}", char::from(*byte)),
            Some(byte) => format!("byte {byte}"),
        }
    }

    fn tell(&self, expected: Expected) -> String {
        let before = self.text[..self.at].iter().rev().take_while(|&&byte| byte != b'\n').count();
        let (line, column) = (self.line, before + 1);
        format!("line {line}, column {column}: {expected} should stand there, and not {}", self.found())
    }
}

/// The first place at which the text is not of the form.
fn formless(text: &[u8]) -> Option<String> {
    let mut cursor = Cursor::of(text);
    let mut wrong = cursor.header().err();
    while wrong.is_none() && !cursor.ended() {
        wrong = cursor.vertex_line().err();
    }
    wrong.map(|expected| cursor.tell(expected))
}

/// The first line of a vertex that is above the highest or was there before, or the first vertex that has none. So many
/// vertices as there are lines are remembered: one of them, or the next, is the first that is missing.
fn misnumbered(text: &[u8]) -> Option<String> {
    let mut cursor = Cursor::of(text);
    let highest = cursor.header().ok()?;
    let lines = text.iter().filter(|&&byte| byte == b'\n').count();
    let mut met = vec![false; lines];
    while !cursor.ended() {
        let line = cursor.line;
        let VertexLine { vertex, largest_successor, .. } = cursor.vertex_line().ok()?;
        let above = |what: &str, number: u64| {
            let number = if number == u64::MAX { "beyond 64 bits".to_string() } else { number.to_string() };
            Some(format!("line {line}: {what} {number}, and the header says that {highest} is the highest"))
        };
        let seen = met.get_mut(vertex as usize).map(|seen| std::mem::replace(seen, true));
        match seen {
            _ if vertex > highest => return above("the vertex is", vertex),
            _ if largest_successor > highest => return above("a successor is", largest_successor),
            Some(true) => return Some(format!("line {line}: vertex {vertex} is given a second time")),
            _ => {}
        }
    }
    let missing = met.iter().position(|&seen| !seen)?;
    Some(format!("vertex {missing} has no line, and the header says that {highest} is the highest"))
}

fn too_large(text: &[u8], room: Room) -> String {
    let Room { vertices, edges } = room;
    let most = Room::MOST;
    let mut cursor = Cursor::of(text);
    let highest = cursor.header().unwrap_or(0);
    if highest >= vertices as u64 {
        let legal = most.vertices;
        return format!(
            "the game has {} vertices, and the room is for {vertices} (--vertices; at most {legal})",
            highest.saturating_add(1)
        );
    }
    while let Ok(VertexLine { vertex, priority, .. }) = cursor.vertex_line() {
        if priority > u32::MAX as u64 {
            let line = cursor.line - 1;
            return format!("line {line}: the priority of vertex {vertex} is above {}", u32::MAX);
        }
    }
    let legal = most.edges;
    format!("the game has more edges than the room's {edges}, equal ones counted once (--edges; at most {legal})")
}

#[cfg(test)]
mod tests {
    use crate::{Answer, Room, read_pgsolver};

    const FORM: &str = "parity 2;\n1 3 0 2,0 \"b\";\n0 0 1 1;\n2 4294967295 0 0,2,0;\n";

    /// Whatever is put in place of a byte, the text is read or what is wrong with it is told.
    #[test]
    fn any_byte() {
        let room = Room { vertices: 3, edges: 5 };
        let (mut read, mut told) = (0, 0);
        for at in 0..FORM.len() {
            for byte in b"01239 \t\r\n;,\"p\xff" {
                let mut text = FORM.as_bytes().to_vec();
                text[at] = *byte;
                match read_pgsolver(&text, room).answer {
                    Answer::Refused(refusal) => {
                        let said = refusal.in_text(&text, room);
                        assert_ne!(said, refusal.what(), "{at} {byte}");
                        assert_eq!(said.contains("line"), refusal.number != 93 || said.contains("above"), "{said}");
                        told += 1;
                    }
                    _ => read += 1,
                }
            }
        }
        assert!(read > 50 && told > 500, "{read} {told}");
    }
}
