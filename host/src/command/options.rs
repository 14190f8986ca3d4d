//! Arguments as people expect them: `--limit 3`, `--limit=3`, `-o OUT`, `-oOUT`, `--` before files whose names begin
//! with a dash. Of an option given twice the last counts.
use super::format::Format;
use super::input::{STREAM, apart};
use super::{Failure, USAGE};
use crate::Room;
use std::path::Path;

/// An option of a command.
#[derive(Debug, PartialEq, Eq)]
pub struct Choice {
    pub names: &'static [&'static str],
    pub takes_value: bool,
}

pub const VERTICES: Choice = Choice { names: &["--vertices"], takes_value: true };
pub const EDGES: Choice = Choice { names: &["--edges"], takes_value: true };
pub const LIMIT: Choice = Choice { names: &["--limit"], takes_value: true };
pub const OUTPUT: Choice = Choice { names: &["-o", "--output", "--words"], takes_value: true };
pub const FORMAT: Choice = Choice { names: &["--format"], takes_value: true };
pub const COUNTS: Choice = Choice { names: &["--counts"], takes_value: false };
pub const MAP: Choice = Choice { names: &["--map"], takes_value: false };
pub const ALL: Choice = Choice { names: &["--all"], takes_value: false };
pub const MODEL: Choice = Choice { names: &["--model"], takes_value: true };
pub const FORMULA: Choice = Choice { names: &["--formula"], takes_value: true };
const HELP: Choice = Choice { names: &["--help", "-h"], takes_value: false };

/// What was given to a command.
#[derive(Debug, Default)]
pub struct Given {
    pub files: Vec<String>,
    values: Vec<(&'static str, String)>,
}

impl Given {
    /// The arguments past the command's name; `choices` are the options that it has.
    pub fn of(arguments: &[String], choices: &'static [Choice]) -> Result<Given, Failure> {
        let mut given = Given::default();
        let mut rest = arguments.iter();
        while let Some(argument) = rest.next() {
            if argument == "--" {
                given.files.extend(rest.cloned());
                break;
            }
            if !argument.starts_with('-') || argument == "-" {
                given.files.push(argument.clone());
                continue;
            }
            let (name, attached) = split(argument);
            let choice = choices.iter().chain([&HELP]).find(|choice| choice.names.contains(&name));
            let choice = choice.ok_or_else(|| usage(format!("no option {name} here")))?;
            let value = match (choice.takes_value, attached) {
                (true, Some(value)) => value.to_string(),
                (true, None) => rest.next().ok_or_else(|| usage(format!("{name} wants a value")))?.clone(),
                (false, None) => String::new(),
                (false, Some(_)) => return Err(usage(format!("{name} takes no value"))),
            };
            given.values.push((choice.names[0], value));
        }
        Ok(given)
    }

    fn value(&self, choice: &Choice) -> Option<&str> {
        self.values.iter().rfind(|(name, _)| *name == choice.names[0]).map(|(_, value)| value.as_str())
    }

    pub fn has(&self, choice: &Choice) -> bool {
        self.value(choice).is_some()
    }

    pub fn wants_help(&self) -> bool {
        self.has(&HELP)
    }

    pub fn output(&self) -> Option<&str> {
        self.value(&OUTPUT)
    }

    /// Refuses an output that is one of the files that are read.
    pub fn output_apart(&self) -> Result<(), Failure> {
        let output = self.output().filter(|&output| output != STREAM);
        apart(output.map(Path::new), &self.files)
    }

    /// The files of a model and of a formula, both or neither.
    pub fn model_and_formula(&self) -> Result<Option<[String; 2]>, Failure> {
        match (self.value(&MODEL), self.value(&FORMULA)) {
            (Some(model), Some(formula)) => Ok(Some([model.to_string(), formula.to_string()])),
            (None, None) => Ok(None),
            _ => Err(usage("--model and --formula are wanted both, or neither".to_string())),
        }
    }

    fn number(&self, choice: &Choice, otherwise: u32) -> Result<u32, Failure> {
        let wrong = |value: &str| usage(format!("{} wants a 32-bit number, not {value:?}", choice.names[0]));
        self.value(choice).map_or(Ok(otherwise), |value| value.parse().map_err(|_| wrong(value)))
    }

    pub fn room(&self, otherwise: Room) -> Result<Room, Failure> {
        let vertices = self.number(&VERTICES, otherwise.vertices)?;
        Ok(Room { vertices, edges: self.number(&EDGES, otherwise.edges)? })
    }

    pub fn format(&self, otherwise: Format) -> Result<Format, Failure> {
        let wrong = |value: &str| usage(format!("--format wants pgsolver, words or lines, not {value:?}"));
        let named = |value: &str| Format::ALL.into_iter().find(|format| format.name() == value);
        let format = self.value(&FORMAT).map_or(Ok(otherwise), |value| named(value).ok_or_else(|| wrong(value)))?;
        match format {
            _ if !self.has(&COUNTS) => Ok(format),
            Format::Lines => Ok(Format::CountedLines),
            other => {
                Err(usage(format!("--counts is for lines, and the format is {}: add --format lines", other.name())))
            }
        }
    }

    pub fn limit(&self) -> Result<u32, Failure> {
        self.number(&LIMIT, u32::MAX)
    }
}

/// The option's name and the value that is written in one with it.
fn split(argument: &str) -> (&str, Option<&str>) {
    if argument.starts_with("--") {
        return argument.split_once('=').map_or((argument, None), |(name, value)| (name, Some(value)));
    }
    let name = argument.char_indices().nth(2).map_or(argument.len(), |(at, _)| at);
    let (name, value) = argument.split_at(name);
    (name, (!value.is_empty()).then_some(value))
}

fn usage(reason: String) -> Failure {
    Failure { status: USAGE, message: reason }
}
