//! Talks to the oracle, the Rust original behind the same words: many requests to a process. It knows no states, items
//! and counts: they are taken out of a game that it is asked about, and its own games are without them.
use super::expansion::call::Input;
use crate::{Layout, Model, bytes_of, words_of};
use std::io::{self, Error, Read, Write};
use std::ops::Range;
use std::path::PathBuf;
use std::process::{Command, Stdio};

pub enum Request<'a> {
    Translate(&'a Model),
    Restrict(&'a [u32]),
    /// A formula over regular formulas, on a system.
    TranslateRegular(&'a Input, &'a [u32]),
}

#[derive(Clone, Debug, PartialEq, Eq)]
pub enum Reply {
    Words(Vec<u32>),
    NotValid,
    Panicked,
}

/// A program that is named must be there: without it less would be compared than was asked for. A name alone means a
/// file here, not a command.
pub fn program_at(path: &str) -> Result<PathBuf, String> {
    let program = std::fs::canonicalize(path).ok().filter(|program| program.is_file());
    program.ok_or_else(|| format!("there is no oracle at {path}"))
}

pub struct Oracle {
    program: PathBuf,
}

impl Oracle {
    pub fn at(program: &str) -> Result<Oracle, String> {
        Ok(Oracle { program: program_at(program)? })
    }

    /// A reply for each request, in order.
    pub fn ask(&self, requests: &[Request]) -> Result<Vec<Reply>, String> {
        self.exchange(requests).map_err(|error| format!("the oracle {} failed: {error}", self.program.display()))
    }

    fn exchange(&self, requests: &[Request]) -> io::Result<Vec<Reply>> {
        let mut child = Command::new(&self.program)
            .stdin(Stdio::piped())
            .stdout(Stdio::piped())
            // What it says there of words that are not valid repeats the reply.
            .stderr(Stdio::null())
            .spawn()?;
        // It reads all of its input before it answers, so writing first can't block.
        let mut input = child.stdin.take().ok_or_else(|| Error::other("no standard input"))?;
        for request in requests {
            input.write_all(&encode(request))?;
        }
        drop(input);
        let mut bytes = Vec::new();
        child.stdout.take().ok_or_else(|| Error::other("no standard output"))?.read_to_end(&mut bytes)?;
        child.wait()?;
        let words = words_of(&bytes).map_err(|fault| Error::other(format!("the oracle's answers: {fault}")))?;
        let replies = decode(&words);
        if replies.len() == requests.len() { Ok(replies) } else { Err(Error::other("the oracle stopped early")) }
    }
}

fn encode(request: &Request) -> Vec<u8> {
    match request {
        // Request 1: the actions of a formula's multi-actions are sorted first, so that they are alike by multiset.
        Request::Translate(model) => [bytes_of(&[1]), model.to_bytes()].concat(),
        Request::Restrict(game) => {
            let game = as_original(game);
            [bytes_of(&[2, game.len() as u32]), bytes_of(&game)].concat()
        }
        // Request 5: the original's wrapper, which expands regular formulas; multi-actions stay as they are listed.
        Request::TranslateRegular(Input { labels, actions, regulars, formula }, system) => {
            let parts: [&[u32]; 5] = [labels, system, actions, regulars, formula];
            let lengths = parts.map(|part| part.len() as u32);
            bytes_of(&[&[5], &lengths[..], &parts.concat()].concat())
        }
    }
}

/// How many words a game has that the original writes.
pub fn original_words(vertices: usize, edges: usize) -> usize {
    4 + 3 * vertices + edges
}

/// The numbers of a vertex's edges in a game that the original writes: the offsets stand behind the priorities.
pub fn original_edges(game: &[u32], vertex: usize) -> Range<usize> {
    let at = Layout::of(game).priorities().end + vertex;
    game[at] as usize..game[at + 1] as usize
}

/// A game as the original writes it. Words that have a wrong length have a wrong one then, too.
pub fn as_original(game: &[u32]) -> Vec<u32> {
    let Some(&[n, m]) = game.first_chunk() else { return game.to_vec() };
    let layout = Layout { vertices: n as usize, edges: m as usize };
    let with_targets = game.len().saturating_sub(layout.edges);
    let [states, offsets] = [layout.states().start, layout.offsets().start].map(|at| at.min(with_targets));
    [&game[..states], &game[offsets..with_targets]].concat()
}

fn decode(mut words: &[u32]) -> Vec<Reply> {
    let mut replies = Vec::new();
    while let Some((&[status, length], rest)) = words.split_first_chunk::<2>()
        && let Some((answer, rest)) = rest.split_at_checked(length as usize)
    {
        replies.push(match status {
            0 => Reply::Words(answer.to_vec()),
            1 => Reply::NotValid,
            _ => Reply::Panicked,
        });
        words = rest;
    }
    replies
}
