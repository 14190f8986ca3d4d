//! A game from PGSolver text.
use super::format::{Form, Format};
use super::input::{name, open};
use super::options::Given;
use super::{DONE, Failure, USAGE, build, no_room, told};
use crate::{Answer, Room, try_read_pgsolver};

pub fn run(given: &Given) -> Result<u8, Failure> {
    let [file] = &given.files[..] else { return Err(Failure::new(USAGE, "exactly one file is wanted")) };
    let format = given.format(Format::Words)?;
    given.room(Room::MOST)?;
    given.output_apart()?;
    let text = open(file)?.text().map_err(|error| Failure::reading(&name(file), error))?;
    let room = given.room(Room::of_text(&text))?;
    let read = try_read_pgsolver(&text, room).map_err(no_room)?;
    if let Answer::Refused(refusal) = read.answer {
        return Err(Failure::refused(told(&name(file), &refusal, &refusal.in_text(&text, room))));
    }
    let unwritten = |refusal| Failure::refused(told(&name(file), &refusal, &refusal.in_game(&read.game)));
    let form = Form::of(format, &read.answer, &read.game, unwritten)?;
    build::write(given, &read.answer, &form, None)?;
    Ok(DONE)
}
