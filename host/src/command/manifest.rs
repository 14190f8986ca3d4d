//! What a night built from what: a text for people and for `sha256sum -c`, which skips the lines that begin with `#`.
use super::format::Format;
use super::help;
use super::sha256::Digest;
use crate::{Answer, Room};
use std::fmt;

pub struct Manifest {
    /// The model's file and its checksum.
    pub model: (String, Digest),
    pub room: Room,
    pub limit: u32,
    pub format: Format,
    pub entries: Vec<Entry>,
}

/// What became of a formula.
#[derive(Default)]
pub struct Entry {
    pub formula: String,
    pub formula_sum: Option<Digest>,
    pub answer: Option<Answer>,
    /// Its name in the folder and its checksum.
    pub game: Option<(String, Digest)>,
    pub status: u8,
}

impl fmt::Display for Manifest {
    fn fmt(&self, f: &mut fmt::Formatter) -> fmt::Result {
        for line in help::version().lines() {
            writeln!(f, "# {line}")?;
        }
        let Room { vertices, edges } = self.room;
        let (limit, format) = (self.limit, self.format.name());
        writeln!(f, "# room {vertices} vertices, {edges} edges; step limit {limit}; format {format}")?;
        writeln!(f, "# model {} {}", self.model.1, self.model.0)?;
        self.entries.iter().try_for_each(|entry| write!(f, "{entry}"))
    }
}

impl fmt::Display for Entry {
    fn fmt(&self, f: &mut fmt::Formatter) -> fmt::Result {
        match self.formula_sum {
            Some(sum) => writeln!(f, "# formula {sum} {}", self.formula)?,
            None => writeln!(f, "# formula unread {}", self.formula)?,
        }
        match (&self.answer, &self.game) {
            (Some(answer), Some((name, sum))) => writeln!(f, "# {answer}\n{sum}  {name}"),
            (Some(answer), None) => writeln!(f, "# {answer}: no game"),
            (None, _) => writeln!(f, "# failed: no game"),
        }
    }
}
