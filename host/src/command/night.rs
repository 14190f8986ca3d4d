//! One model and many formulas: for each its game in a folder, so that the folder holds this night's games alone.
use super::format::{Form, Format};
use super::input::{STREAM, apart, name, open, read_formulas, read_model};
use super::manifest::{Entry, Manifest};
use super::options::Given;
use super::sha256::{Digest, Summed};
use super::{CUT, DONE, Failure, NO_FILE, NO_MEMORY, NO_OUTPUT, NO_WORDS, REFUSED, USAGE};
use super::{complain, no_room, output, status_of, told};
use crate::{Answer, Model, Party, Refusal, Room, Slices};
use std::borrow::Cow;
use std::fs::{self, File, TryLockError};
use std::io::{self, BufWriter, IsTerminal, Write};
use std::path::{Path, PathBuf};
use std::time::Instant;

/// Statuses from the best to the gravest: the night's is the gravest of its formulas'.
const GRAVITY: [u8; 7] = [DONE, CUT, REFUSED, NO_WORDS, NO_FILE, NO_MEMORY, NO_OUTPUT];

/// A formula's file and its game's: the name without the ending, and where the game goes.
struct Task {
    formula: String,
    name: String,
    game: PathBuf,
}

/// What is done before any formula is read.
struct Plan {
    inputs: Vec<String>,
    tasks: Vec<Task>,
    manifest: PathBuf,
    folder: String,
}

impl Plan {
    /// Refuses what would lose something, before anything is written.
    fn of(given: &Given) -> Result<Plan, Failure> {
        let usage = |reason: &str| Failure::new(USAGE, reason);
        let (_, formulas) = given.files.split_first().ok_or_else(|| usage("a model is wanted"))?;
        let folder = given.output().ok_or_else(|| usage("-o DIR is wanted: the folder of the games"))?;
        if formulas.is_empty() {
            return Err(usage("at least one formula is wanted"));
        }
        let format = given.format(Format::Pgsolver)?;
        let tasks: Result<Vec<Task>, Failure> = formulas.iter().map(|formula| task(formula, folder, format)).collect();
        let manifest = Path::new(folder).join("manifest");
        let plan = Plan { inputs: given.files.clone(), tasks: tasks?, manifest, folder: folder.to_string() };
        plan.apart()?;
        Ok(plan)
    }

    fn apart(&self) -> Result<(), Failure> {
        for (i, task) in self.tasks.iter().enumerate() {
            if let Some(other) = self.tasks[..i].iter().find(|other| other.game == task.game) {
                let (one, two, game) = (&other.formula, &task.formula, task.game.display());
                return Err(Failure::new(USAGE, format!("{one} and {two} would both be written to {game}")));
            }
        }
        let outputs = self.outputs();
        apart(outputs.iter().map(PathBuf::as_path), &self.inputs)
    }

    /// Every file that a night of these formulas writes, unfinished ones and games in another format included.
    fn outputs(&self) -> Vec<PathBuf> {
        let in_any = |task: &Task| Format::ALL.map(|format| place(&self.folder, &task.name, format));
        let whole = self.tasks.iter().flat_map(in_any).chain([self.manifest.clone()]);
        whole.flat_map(|place| [output::part_of(&place, ""), place]).collect()
    }

    /// Takes the folder for this process alone, as long as the file that it gives is open.
    fn take_folder(&self) -> Result<File, Failure> {
        let failed = |error| Failure::writing(&self.folder, error);
        fs::create_dir_all(&self.folder).map_err(failed)?;
        let folder = File::open(&self.folder).map_err(failed)?;
        match folder.try_lock() {
            Ok(()) => Ok(folder),
            Err(TryLockError::WouldBlock) => {
                Err(Failure::new(NO_OUTPUT, format!("{}: another night is at work there", self.folder)))
            }
            Err(TryLockError::Error(error)) => Err(failed(error)),
        }
    }

    /// Removes the last night's outputs of these formulas first, so that whatever happens, an interruption too, none
    /// of them is taken for this night's.
    fn clear(&self) -> Result<(), Failure> {
        let mut failure = None;
        for place in self.outputs() {
            if let Err(error) = output::remove(&place) {
                failure = Some(Failure::writing(&format!("removing the old {}", place.display()), error));
            }
        }
        failure.map_or(Ok(()), Err)
    }
}

/// Where a game goes.
fn place(folder: &str, name: &str, format: Format) -> PathBuf {
    Path::new(folder).join(format!("{name}.{}", format.ending()))
}

fn task(formula: &str, folder: &str, format: Format) -> Result<Task, Failure> {
    let stem = Path::new(formula).file_stem().and_then(|stem| stem.to_str()).unwrap_or(STREAM);
    if stem == STREAM {
        return Err(Failure::new(USAGE, format!("{formula}: a formula is a file, whose name the game gets")));
    }
    // A manifest has one line for each file.
    if stem.chars().any(|c| c.is_control() || c == '\\') {
        return Err(Failure::new(USAGE, format!("{formula:?}: a name that does not fit on a line of the manifest")));
    }
    Ok(Task { formula: formula.to_string(), name: stem.to_string(), game: place(folder, stem, format) })
}

pub fn run(given: &Given) -> Result<u8, Failure> {
    let (room, limit, format) = (given.room(Room::MOST)?, given.limit()?, given.format(Format::Pgsolver)?);
    let plan = Plan::of(given)?;
    let _taken = plan.take_folder()?;
    plan.clear()?;
    let mut source = open(&plan.inputs[0])?.through(Summed::new);
    let model = read_model(&plan.inputs[0], &mut source)?;
    let sum = source.into_inner().digest();
    let mut night = Night {
        slices: Slices::new(room).map_err(no_room)?,
        model,
        room,
        limit,
        format,
        table: Table::of(&plan.tasks),
        shared_told: false,
        model_file: name(&plan.inputs[0]),
    };
    let model = (night.model_file.clone(), sum);
    let mut manifest = Manifest { model, room, limit, format, entries: Vec::new() };
    let mut worst = DONE;
    night.table.head();
    for (i, task) in plan.tasks.iter().enumerate() {
        night.table.progress(i + 1, &task.name);
        let entry = night.formula(task);
        worst = graver(worst, entry.status);
        manifest.entries.push(entry);
    }
    output::replace(&plan.manifest, &output::part_of(&plan.manifest, ""), |file| write!(file, "{manifest}"))
        .map_err(|error| Failure::writing(&plan.manifest.display().to_string(), error))?;
    night.table.end().map_err(|error| Failure::writing("standard output", error))?;
    Ok(worst)
}

fn graver(one: u8, other: u8) -> u8 {
    let rank = |status: u8| GRAVITY.iter().position(|&it| it == status).unwrap_or(GRAVITY.len());
    if rank(one) < rank(other) { other } else { one }
}

/// What one formula after another uses: the slices are allocated and the model is read once.
struct Night {
    slices: Slices,
    model: Model,
    room: Room,
    limit: u32,
    format: Format,
    table: Table,
    shared_told: bool,
    model_file: String,
}

impl Night {
    fn formula(&mut self, task: &Task) -> Entry {
        let begun = Instant::now();
        let mut entry = Entry { formula: name(&task.formula), ..Entry::default() };
        let result = self.game_of(task, &mut entry);
        self.table.row(&task.name, entry.answer.as_ref(), begun.elapsed().as_secs_f64());
        if let Err(Failure { status, message }) = result {
            entry.status = status;
            // A fault of the model or of the room is every formula's, and is told once.
            let shared = matches!(entry.answer, Some(Answer::Refused(refusal)) if refusal.number < 31);
            if !(shared && self.shared_told) {
                complain(&message);
            }
            self.shared_told |= shared;
        }
        entry
    }

    fn game_of(&mut self, task: &Task, entry: &mut Entry) -> Result<(), Failure> {
        let mut source = open(&task.formula)?.through(Summed::new);
        let formulas = read_formulas(&task.formula, &mut source)?;
        entry.formula_sum = Some(source.into_inner().digest());
        if let Err(refusal) = self.model.take(&formulas) {
            entry.answer = Some(Answer::Refused(refusal));
            let thing = refusal.in_formulas(&self.model.labels, &formulas);
            return Err(Failure::refused(self.told(&refusal, &entry.formula, &thing)));
        }
        let (answer, _) = self.slices.build(&self.model, self.limit);
        entry.answer = Some(answer);
        entry.status = status_of(&answer);
        match answer {
            Answer::Refused(refusal) => {
                let thing = refusal.in_model(&self.model, self.room);
                Err(Failure::refused(self.told(&refusal, &entry.formula, &thing)))
            }
            Answer::Cut { steps, .. } => {
                Err(Failure::new(CUT, format!("{}: cut after {steps} steps, no game is written", entry.formula)))
            }
            Answer::Done { .. } => {
                let sum = self.write_game(task, &answer).inspect_err(|_| entry.answer = None)?;
                entry.game = Some((format!("{}.{}", task.name, self.format.ending()), sum));
                Ok(())
            }
        }
    }

    fn write_game(&mut self, task: &Task, answer: &Answer) -> Result<Digest, Failure> {
        let place = task.game.display().to_string();
        let form = match self.format {
            Format::Pgsolver => match self.slices.pgsolver() {
                Ok(text) => Form::Text(Cow::Borrowed(text)),
                Err(refusal) => return Err(Failure::refused(told(&place, &refusal, refusal.what()))),
            },
            Format::Words => Form::Words(self.slices.game()),
            Format::Lines => Form::Lines(answer, self.slices.game()),
            Format::CountedLines => Form::CountedLines(answer, self.slices.game()),
        };
        let written = output::replace(&task.game, &output::part_of(&task.game, ""), |file| {
            let mut out = BufWriter::new(Summed::new(file));
            form.write(&mut out)?;
            Ok(out.into_inner()?.digest())
        });
        written.map_err(|error| Failure::writing(&place, error))
    }

    fn told(&self, refusal: &Refusal, formula: &str, thing: &str) -> String {
        let file = if refusal.who() == Party::Modeller { &self.model_file } else { formula };
        told(file, refusal, thing)
    }
}

/// The rows on standard output. If they cannot be written the night's work goes on, and the error is told at its end.
struct Table {
    width: usize,
    tasks: usize,
    failed: Option<io::Error>,
    shows_progress: bool,
}

impl Table {
    fn of(tasks: &[Task]) -> Table {
        let width = tasks.iter().map(|task| task.name.chars().count()).max().unwrap_or(0).max(7);
        Table { width, tasks: tasks.len(), failed: None, shows_progress: io::stderr().is_terminal() }
    }

    fn head(&mut self) {
        self.cells(["formula", "answer", "steps", "vertices", "edges", "seconds"].map(str::to_string));
    }

    fn row(&mut self, name: &str, answer: Option<&Answer>, seconds: f64) {
        let (answer, sizes) = match answer {
            Some(&Answer::Done { steps, vertices, edges }) => ("done".to_string(), Some([steps, vertices, edges])),
            Some(&Answer::Cut { steps, vertices, edges }) => ("cut".to_string(), Some([steps, vertices, edges])),
            Some(refused) => (refused.to_string(), None),
            None => ("failed".to_string(), None),
        };
        let [steps, vertices, edges] = match sizes {
            Some(sizes) => sizes.map(|size| size.to_string()),
            None => ["-"; 3].map(str::to_string),
        };
        self.cells([name.to_string(), answer, steps, vertices, edges, format!("{seconds:.3}")]);
    }

    fn cells(&mut self, [name, answer, steps, vertices, edges, seconds]: [String; 6]) {
        self.clear_progress();
        let width = self.width;
        let mut out = io::stdout().lock();
        let row = format!("{name:width$}  {answer:18} {steps:>10} {vertices:>9} {edges:>9} {seconds:>9}\n");
        let written = out.write_all(row.as_bytes()).and_then(|()| out.flush());
        self.failed = self.failed.take().or(written.err());
    }

    /// Whoever watches a terminal sees which formula is at work; a log gets the rows alone.
    fn progress(&self, number: usize, name: &str) {
        if self.shows_progress {
            let _ = write!(io::stderr(), "\r{number} of {}: {name}", self.tasks);
        }
    }

    fn clear_progress(&self) {
        if self.shows_progress {
            let _ = write!(io::stderr(), "\r\x1b[K");
        }
    }

    fn end(&mut self) -> io::Result<()> {
        self.failed.take().map_or(Ok(()), Err)
    }
}
