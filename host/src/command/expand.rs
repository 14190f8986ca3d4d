//! A formula without regular formulas in the place of one with them.
use super::format::Form;
use super::input::Input;
use super::options::Given;
use super::{DONE, Failure, build};
use crate::model::behind_lengths;
use crate::{Answer, Room};

pub fn run(given: &Given) -> Result<u8, Failure> {
    given.output_apart()?;
    let input = Input::read(&given.files)?;
    // What is written is accepted by a run; this judges the system, and formulas that need no expansion.
    if let Some(refusal) = input.model.fault() {
        return Err(Failure::refused(input.told(&refusal, Room::MOST)));
    }
    let [labels, system, actions, formula] = input.model.parts();
    let words = match given.files.len() {
        1 => behind_lengths(&[labels, system, actions, formula]),
        _ => behind_lengths(&[actions, formula]),
    };
    let answer = Answer::Done { steps: formula.len() as u32, vertices: 0, edges: 0 };
    build::write(given, &answer, &Form::Words(&words), None)?;
    Ok(DONE)
}
