//! One game from one input.
use super::format::{Form, Format};
use super::input::{Input, STREAM};
use super::options::Given;
use super::{CUT, Failure, complain, no_room, output, status_of};
use crate::{Answer, Room, map_line};
use std::io::{self, BufWriter, Write};

pub fn run(given: &Given) -> Result<u8, Failure> {
    let (room, limit, format) = (given.room(Room::MOST)?, given.limit()?, given.format(usual(given))?);
    given.output_apart()?;
    let input = Input::read(&given.files)?;
    let built = input.model.try_build(room, limit).map_err(no_room)?;
    match built.answer {
        Answer::Refused(refusal) => return Err(Failure::refused(input.told(&refusal, room))),
        Answer::Cut { steps, .. } if format == Format::Pgsolver => {
            let why = "a cut game has no PGSolver text, and nothing is written";
            return Err(Failure::new(CUT, format!("{}: cut after {steps} steps: {why}", input.name())));
        }
        _ => {}
    }
    let unwritten = |refusal| Failure::refused(input.told(&refusal, room));
    let form = Form::of(format, &built.answer, &built.game, unwritten)?;
    write(given, &built.answer, &form, None)?;
    Ok(status_of(&built.answer))
}

/// What is written unless `--format` says otherwise: lines to standard output, words where an output is named.
pub fn usual(given: &Given) -> Format {
    if given.output().is_some() { Format::Words } else { Format::Lines }
}

/// The game into the output that was named, or to standard output; then the map if one is wanted. The answer is told
/// where it disturbs nothing, and lines begin with it.
pub fn write(given: &Given, answer: &Answer, form: &Form, map: Option<&[u32]>) -> Result<(), Failure> {
    let out = &mut BufWriter::new(io::stdout().lock());
    let failed = |error| Failure::writing("standard output", error);
    match given.output().filter(|&file| file != STREAM) {
        None => {
            form.write(out).and_then(|()| out.flush()).map_err(failed)?;
            if !matches!(form, Form::Lines(..) | Form::CountedLines(..)) {
                complain(&answer.to_string());
            }
        }
        Some(file) => {
            let whole = |mut out: &mut dyn Write| form.write(&mut out);
            output::write_named(file, whole).map_err(|error| Failure::writing(file, error))?;
            writeln!(out, "{answer}").map_err(failed)?;
        }
    }
    map.map_or(Ok(()), |map| map_line(out, map)).and_then(|()| out.flush()).map_err(failed)
}
