//! The command `hingrezh`: games from files with the proved library, one at a time or a night's worth.
mod build;
mod dot;
mod expand;
mod format;
mod help;
mod input;
mod manifest;
mod night;
mod notation;
mod options;
mod output;
mod read;
mod restrict;
mod sha256;
mod show;
mod vertex;

use crate::{Answer, NoMemory, ReadError, Refusal};
use options::{ALL, COUNTS, Choice, EDGES, FORMAT, FORMULA, Given, LIMIT, MAP, MODEL, OUTPUT, VERTICES};
use std::ffi::OsString;
use std::io::{self, Write};

/// Exit statuses; those above 63 are the usual ones of sysexits.
const DONE: u8 = 0;
const REFUSED: u8 = 2;
const CUT: u8 = 3;
const USAGE: u8 = 64;
const NO_WORDS: u8 = 65;
const NO_FILE: u8 = 66;
const NO_MEMORY: u8 = 71;
const NO_OUTPUT: u8 = 74;

/// Why a command ends without its result.
#[derive(Debug)]
struct Failure {
    status: u8,
    message: String,
}

impl Failure {
    fn new(status: u8, message: impl Into<String>) -> Failure {
        Failure { status, message: message.into() }
    }

    fn reading(file: &str, error: ReadError) -> Failure {
        let status = match &error {
            ReadError::Fault(_) => NO_WORDS,
            ReadError::Io(error) if error.kind() == io::ErrorKind::OutOfMemory => NO_MEMORY,
            ReadError::Io(_) => NO_FILE,
        };
        Failure::new(status, format!("{file}: {error}"))
    }

    /// Says of a file with other words what was expected.
    fn expecting(mut self, what: &str) -> Failure {
        if self.status == NO_WORDS {
            self.message += &format!(" (expected: {what})");
        }
        self
    }

    fn writing(file: &str, error: io::Error) -> Failure {
        Failure::new(NO_OUTPUT, format!("{file}: {error}"))
    }

    fn refused(message: String) -> Failure {
        Failure::new(REFUSED, message)
    }
}

impl From<NoMemory> for Failure {
    fn from(error: NoMemory) -> Failure {
        Failure::new(NO_MEMORY, error.to_string())
    }
}

/// The same where the slices are as large as the room that can be chosen.
fn no_room(error: NoMemory) -> Failure {
    Failure::new(NO_MEMORY, format!("{error}; --vertices and --edges make them smaller"))
}

/// A refusal as it is told: file, number and place, the thing that is wrong, who can mend it.
fn told(file: &str, refusal: &Refusal, thing: &str) -> String {
    let Refusal { number, place } = refusal;
    format!("{file}: refused {number} {place}: {thing}; to be mended by {}", refusal.who())
}

fn status_of(answer: &Answer) -> u8 {
    match answer {
        Answer::Done { .. } => DONE,
        Answer::Cut { .. } => CUT,
        Answer::Refused(_) => REFUSED,
    }
}

/// A command by its name: its options, its help, what it does.
struct Command {
    name: &'static str,
    options: &'static [Choice],
    help: &'static str,
    run: fn(&Given) -> Result<u8, Failure>,
}

/// The options of what builds games and writes them.
const BUILDING: &[Choice] = &[VERTICES, EDGES, LIMIT, FORMAT, COUNTS, OUTPUT];

const COMMANDS: [Command; 8] = [
    Command { name: "build", options: BUILDING, help: help::BUILD, run: build::run },
    Command { name: "night", options: BUILDING, help: help::NIGHT, run: night::run },
    Command { name: "read", options: &[VERTICES, EDGES, FORMAT, OUTPUT], help: help::READ, run: read::run },
    Command { name: "restrict", options: &[MAP, FORMAT, COUNTS, OUTPUT], help: help::RESTRICT, run: restrict::run },
    Command { name: "expand", options: &[OUTPUT], help: help::EXPAND, run: expand::run },
    Command { name: "show", options: &[ALL], help: help::SHOW, run: show::run },
    Command { name: "where", options: &[MODEL, FORMULA], help: help::WHERE, run: vertex::run },
    Command { name: "dot", options: &[VERTICES, EDGES, LIMIT, OUTPUT], help: help::DOT, run: dot::run },
];

/// Runs the command that the arguments name, and gives the exit status.
pub fn run(arguments: impl Iterator<Item = OsString>) -> u8 {
    let given: Result<Vec<String>, OsString> = arguments.map(OsString::into_string).collect();
    let result = match given {
        Ok(given) => dispatch(&given),
        Err(wrong) => Err(Failure::new(USAGE, format!("the argument {wrong:?} is no text"))),
    };
    result.unwrap_or_else(|Failure { status, message }| {
        complain(&message);
        status
    })
}

fn dispatch(given: &[String]) -> Result<u8, Failure> {
    let hint = |failure: Failure, name: &str| match failure.status {
        USAGE => Failure::new(USAGE, format!("{}\ntry `hingrezh {name}--help`", failure.message)),
        _ => failure,
    };
    let Some((name, rest)) = given.split_first() else {
        return Err(hint(Failure::new(USAGE, "no command"), ""));
    };
    match (name.as_str(), rest.first()) {
        ("--help" | "-h", _) | ("help", None) => return print(help::ALL),
        ("--version" | "-V", _) => return print(&help::version()),
        _ => {}
    }
    let (name, wants_help) = match (name.as_str(), rest.first()) {
        ("help", Some(about)) => (about, true),
        _ => (name, false),
    };
    let Some(command) = COMMANDS.iter().find(|command| command.name == name) else {
        return Err(hint(Failure::new(USAGE, format!("no command {name:?}")), ""));
    };
    let run = |given: Given| if given.wants_help() { print(command.help) } else { (command.run)(&given) };
    match wants_help {
        true => print(command.help),
        false => Given::of(rest, command.options).and_then(run).map_err(|it| hint(it, &format!("{name} "))),
    }
}

fn print(text: &str) -> Result<u8, Failure> {
    let mut out = io::stdout().lock();
    writeln!(out, "{text}").and_then(|()| out.flush()).map_err(|error| Failure::writing("standard output", error))?;
    Ok(DONE)
}

/// Says something on standard error; if that is closed there is nobody to tell.
fn complain(message: &str) {
    let _ = writeln!(io::stderr(), "hingrezh: {message}");
}
