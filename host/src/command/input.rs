//! What build, expand, show and dot take: one file with all groups of words, or a model's and a formula's. Where there
//! are regular formulas, the formula is expanded.
use super::{Failure, USAGE, told};
use crate::{Formulas, Model, Party, ReadError, Refusal, Room, Source};
use std::collections::HashMap;
use std::fs;
use std::io::{self, Read};
use std::path::{Path, PathBuf};

/// Names standard input, and standard output.
pub const STREAM: &str = "-";

/// What files hold, for messages.
const INPUT: &str = "four lengths, labels, system, action formulas, formula; or five, with regular formulas before the \
                     formula";
const MODEL: &str = "two lengths, labels, system";
const FORMULA: &str = "two lengths, action formulas, formula; or three, with regular formulas before the formula";

pub struct Input {
    /// What a run takes: its formula is the expanded one.
    pub model: Model,
    /// As they were read.
    pub formulas: Formulas,
    files: Vec<String>,
}

/// A file or standard input, within bounds.
pub fn open(file: &str) -> Result<Source<Box<dyn Read>>, Failure> {
    if file == STREAM {
        return Ok(Source::stream(Box::new(io::stdin())));
    }
    let source = Source::open(file).map_err(|error| Failure::reading(file, ReadError::Io(error)))?;
    Ok(source.through(|from| Box::new(from) as Box<dyn Read>))
}

pub fn read_model<R: Read>(file: &str, source: &mut Source<R>) -> Result<Model, Failure> {
    source.model().map_err(|error| Failure::reading(&name(file), error).expecting(MODEL))
}

pub fn read_formulas<R: Read>(file: &str, source: &mut Source<R>) -> Result<Formulas, Failure> {
    source.formulas().map_err(|error| Failure::reading(&name(file), error).expecting(FORMULA))
}

/// A file's name in a message or a manifest: on one line, whatever it is.
pub fn name(file: &str) -> String {
    let shown = |c: char| if c.is_control() { c.escape_default().to_string() } else { c.to_string() };
    if file == STREAM { "standard input".to_string() } else { file.chars().map(shown).collect() }
}

impl Input {
    /// Expands the formula; the model has none yet.
    pub fn new(model: Model, formulas: Formulas, files: &[String]) -> Result<Input, Failure> {
        let mut input = Input { model, formulas, files: files.to_vec() };
        match input.model.take(&input.formulas) {
            Err(refusal) => {
                let thing = refusal.in_formulas(&input.model.labels, &input.formulas);
                Err(Failure::refused(input.told_as(&refusal, &thing)))
            }
            Ok(()) => Ok(input),
        }
    }

    pub fn read(files: &[String]) -> Result<Input, Failure> {
        let (model, formulas) = match files {
            [file] => {
                let input = open(file)?.model_and_formulas().map_err(|error| Failure::reading(&name(file), error));
                input.map_err(|failure| failure.expecting(INPUT))?
            }
            [of_model, of_formula] => {
                let model = read_model(of_model, &mut open(of_model)?)?;
                (model, read_formulas(of_formula, &mut open(of_formula)?)?)
            }
            _ => return Err(Failure::new(USAGE, "one file is wanted, or a model's and a formula's")),
        };
        Input::new(model, formulas, files)
    }

    /// The files that were read.
    pub fn name(&self) -> String {
        self.files.iter().map(|file| name(file)).collect::<Vec<_>>().join(", ")
    }

    /// A run's refusal of these words, with the file in which the fault is.
    pub fn told(&self, refusal: &Refusal, room: Room) -> String {
        self.told_as(refusal, &refusal.in_model(&self.model, room))
    }

    fn told_as(&self, refusal: &Refusal, thing: &str) -> String {
        let file = match (refusal.who(), &self.files[..]) {
            (Party::Modeller, [first, ..]) => name(first),
            (Party::FormulaWriter, [.., last]) => name(last),
            _ => self.name(),
        };
        told(&file, refusal, thing)
    }
}

/// Refuses outputs that would take the place of an input.
pub fn apart<'a>(outputs: impl IntoIterator<Item = &'a Path>, inputs: &'a [String]) -> Result<(), Failure> {
    let named = |input: &'a String| fs::canonicalize(input).ok().map(|place| (place, input));
    let places: HashMap<PathBuf, &String> = inputs.iter().filter_map(named).collect();
    for output in outputs {
        if let Some(input) = fs::canonicalize(output).ok().and_then(|place| places.get(&place)) {
            return Err(Failure::new(USAGE, format!("the output {} is the input {input}", output.display())));
        }
    }
    Ok(())
}
