//! The forms in which games are written: PGSolver text for solvers, words for programs and for `restrict` and `dot`,
//! lines for people.
use super::Failure;
use super::output::write_words;
use crate::{Answer, Refusal, counted_lines, game_lines, try_write_pgsolver};
use std::borrow::Cow;
use std::io::{self, Write};

#[derive(Clone, Copy, Debug, PartialEq, Eq)]
pub enum Format {
    Pgsolver,
    Words,
    Lines,
    /// Lines that show counts, too: `--counts` makes them of lines.
    CountedLines,
}

impl Format {
    /// Those that the option names.
    pub const ALL: [Format; 3] = [Format::Pgsolver, Format::Words, Format::Lines];

    /// As the option names it, and a manifest.
    pub fn name(self) -> &'static str {
        match self {
            Format::Pgsolver => "pgsolver",
            Format::Words => "words",
            Format::Lines => "lines",
            Format::CountedLines => "lines with counts",
        }
    }

    pub fn is_lines(self) -> bool {
        matches!(self, Format::Lines | Format::CountedLines)
    }

    /// How the name of a night's game ends.
    pub fn ending(self) -> &'static str {
        match self {
            Format::Pgsolver => "pg",
            Format::Words => "game",
            Format::Lines | Format::CountedLines => "lines",
        }
    }
}

/// A game in one of the forms.
pub enum Form<'a> {
    Text(Cow<'a, [u8]>),
    Words(&'a [u32]),
    Lines(&'a Answer, &'a [u32]),
    CountedLines(&'a Answer, &'a [u32]),
}

impl Form<'_> {
    /// A game that has no PGSolver text is given to `told`, with the refusal.
    pub fn of<'a>(
        format: Format,
        answer: &'a Answer,
        game: &'a [u32],
        told: impl FnOnce(Refusal) -> Failure,
    ) -> Result<Form<'a>, Failure> {
        match format {
            Format::Words => Ok(Form::Words(game)),
            Format::Lines => Ok(Form::Lines(answer, game)),
            Format::CountedLines => Ok(Form::CountedLines(answer, game)),
            Format::Pgsolver => {
                let written = try_write_pgsolver(game)?;
                match written.answer {
                    Answer::Refused(refusal) => Err(told(refusal)),
                    _ => Ok(Form::Text(Cow::Owned(written.text))),
                }
            }
        }
    }

    pub fn write(&self, out: &mut impl Write) -> io::Result<()> {
        match self {
            Form::Text(text) => out.write_all(text),
            Form::Words(game) => write_words(out, game),
            Form::Lines(answer, game) => game_lines(out, answer, game),
            Form::CountedLines(answer, game) => counted_lines(out, answer, game),
        }
    }
}
