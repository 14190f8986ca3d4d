//! The part of a game that its initial vertex reaches.
use super::format::Form;
use super::input::{STREAM, name, open};
use super::options::{Given, MAP};
use super::{DONE, Failure, USAGE, build, told};
use crate::{Answer, Refusal, try_restrict};

pub fn run(given: &Given) -> Result<u8, Failure> {
    let [file] = &given.files[..] else { return Err(Failure::new(USAGE, "exactly one file is wanted")) };
    let format = given.format(build::usual(given))?;
    let streamed = given.output().is_none_or(|output| output == STREAM);
    if given.has(&MAP) && streamed && !format.is_lines() {
        return Err(Failure::new(USAGE, "--map is a line, and the game no lines: one of them to standard output"));
    }
    given.output_apart()?;
    let game = open(file)?.game().map_err(|error| Failure::reading(&name(file), error))?;
    let restricted = try_restrict(&game)?;
    if let Answer::Refused(refusal) = restricted.answer {
        return Err(Failure::refused(told(&name(file), &refusal, &refusal.in_game(&game))));
    }
    let unwritten = |refusal: Refusal| {
        let thing = refusal.in_game(&restricted.game);
        Failure::refused(told(&name(file), &refusal, &format!("in the restricted game {thing}")))
    };
    let form = Form::of(format, &restricted.answer, &restricted.game, unwritten)?;
    build::write(given, &restricted.answer, &form, given.has(&MAP).then_some(&restricted.map[..]))?;
    Ok(DONE)
}
