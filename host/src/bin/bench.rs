//! Times the library, the plain implementation and the oracle's Rust text on the same inputs, and prints the tables
//! of docs/PERFORMANCE.md.
use hingrezh::check::call::{Implementation, LIBRARY, PLAIN};
use hingrezh::check::expansion::call as expansion;
use hingrezh::check::expansion::large as expansions;
use hingrezh::check::options::{self, Options};
use hingrezh::check::oracle::program_at;
use hingrezh::check::pgsolver::call as pgsolver;
use hingrezh::check::pgsolver::large::{TEXT_SHAPES, TextInput, TextShape};
use hingrezh::check::shapes::{SHAPES, Shape, WORST};
use hingrezh::check::spread::Spread;
use hingrezh::{Answer, Model, Room, bytes_of, game_words};
use std::path::{Path, PathBuf};
use std::process::{Command, ExitCode, Stdio};
use std::time::Duration;

const USAGE: &str = "\
usage: bench [--oracle PROGRAM] [--runs N] [--seconds N] [--sizes LIST] [SHAPE..]
       bench --before PROGRAM [--runs N] [--sizes LIST] [SHAPE..]

Measures the library and the plain Rust implementation on large shapes and prints tables: the median of several runs
with the least and the greatest in brackets. A run is a process of its own, in which the two take turns on the same
slices. How it is measured is told in docs/PERFORMANCE.md.

--oracle PROGRAM  measures the Rust original, too: PROGRAM is the oracle's own `bench`
--before PROGRAM  measures runs by the library beside those by an earlier one, in turn: PROGRAM is the `bench` that was
                  built with it
--runs N          how many runs (5)
--seconds N       how much processor time the original may take on one input, all of its runs together (20)
--sizes LIST      quarters of the shapes' full size, as 1,2,4; usual are 1,2,4, and 4 for the worst cases and the
                  largest texts; expansions have one size
SHAPE..           only these; usual are all:
                  ";

/// The shapes that a speed is asked of, and how fast they should be (docs/PERFORMANCE.md).
const ASKED: [&str; 3] = ["boxes", "alternation", "and-or"];
const ASKED_OF_PLAIN: f64 = 1.25;
const ASKED_OF_ORIGINAL: f64 = 3.0;

/// Of one implementation in one run. Seconds are processor time of the calling thread.
#[derive(Clone, Copy)]
struct Measured {
    vertices: f64,
    edges: f64,
    seconds: f64,
    restrict: f64,
    peak: f64,
}

/// Megabytes, from the process's own status.
fn peak() -> f64 {
    let status = std::fs::read_to_string("/proc/self/status").unwrap_or_default();
    let line = status.lines().find_map(|line| line.strip_prefix("VmHWM:")).unwrap_or("0");
    line.split_whitespace().next().and_then(|kb| kb.parse::<f64>().ok()).unwrap_or(0.0) / 1024.0
}

#[repr(C)]
struct Time {
    seconds: i64,
    nanoseconds: i64,
}

// From the C library, which every Linux program in Rust is linked with.
unsafe extern "C" {
    fn clock_gettime(clock: i32, time: *mut Time) -> i32;
}

/// Processor time of this thread in seconds, so that a busy machine matters less.
fn processor_time() -> f64 {
    const OF_THIS_THREAD: i32 = 3;
    let mut time = Time { seconds: 0, nanoseconds: 0 };
    // SAFETY: the time is written to what was lent for it, laid out as on 64-bit Linux.
    assert_eq!(unsafe { clock_gettime(OF_THIS_THREAD, &mut time) }, 0, "no such clock");
    time.seconds as f64 + time.nanoseconds as f64 / 1e9
}

/// Processor time of another process in seconds, from its status: the 14th and 15th entries in hundredths of a second,
/// the second entry being a name in brackets. `None` once it has ended.
fn processor_time_of(process: u32) -> Option<f64> {
    let status = std::fs::read_to_string(format!("/proc/{process}/stat")).ok()?;
    let (_, entries) = status.rsplit_once(')')?;
    let times = entries.split_whitespace().skip(11).take(2);
    Some(times.filter_map(|ticks| ticks.parse::<f64>().ok()).sum::<f64>() / 100.0)
}

/// The median times of each implementation over at least three turns of `work`, and more while they take less than half
/// a second in all. They take turns on the same slices, so that none has the better memory or the quieter moment.
fn in_turn<T: Copy, const N: usize>(all: [T; N], mut work: impl FnMut(T)) -> [f64; N] {
    let (mut times, mut sum) = ([const { Vec::new() }; N], 0.0);
    while times[0].len() < 3 || (sum < 0.5 && times[0].len() < 99) {
        for (by, times) in all.into_iter().zip(&mut times) {
            let start = processor_time();
            work(by);
            let time = processor_time() - start;
            times.push(time);
            sum += time;
        }
    }
    times.map(|times| Spread::of(times).map_or(0.0, |spread| spread.median))
}

/// Both calls by library and plain, with exactly the room that the game needs.
fn measure(model: &Model, room: Room) -> [Measured; 2] {
    let (v, e) = (room.vertices as usize, room.edges as usize);
    // Filled, so that no page is touched for the first time by a call.
    let (mut game, mut work) = (vec![7; game_words(v, e)], vec![7; 8 * v + 2 * e]);
    let mut answer = [0; 4];
    let Model { labels, system, actions, formula } = model;
    let mut build = |by: Implementation| {
        let (v, e) = (room.vertices, room.edges);
        (by.translate)(labels, system, actions, formula, v, e, u32::MAX, &mut game, &mut work, &mut answer);
        assert_eq!(answer[0], 0, "a shape that fits its room: {answer:?}");
    };
    // A peak never falls: the library's first.
    let peaks = [LIBRARY, PLAIN].map(|by| {
        build(by);
        peak()
    });
    let seconds = in_turn([LIBRARY, PLAIN], build);
    let [_, _, n, m] = answer;
    game.truncate(game_words(n as usize, m as usize));
    drop(work);
    let (mut out, mut map) = (vec![7; game.len()], vec![7; n as usize]);
    let mut queue = map.clone();
    let restrict = |by: Implementation| (by.compute_reachable)(&game, &mut out, &mut map, &mut queue, &mut answer);
    let restrict = in_turn([LIBRARY, PLAIN], restrict);
    assert_eq!(answer, [0, n, n, m], "a finished game loses no vertex");
    let (vertices, edges) = (n as f64, m as f64);
    let of = |i: usize| Measured { vertices, edges, seconds: seconds[i], restrict: restrict[i], peak: peaks[i] };
    [of(0), of(1)]
}

/// The exact room of a model's game.
fn exact_room(model: &Model) -> Result<Room, String> {
    match model.build(Room::MOST, u32::MAX).answer {
        Answer::Done { vertices, edges, .. } => Ok(Room { vertices, edges }),
        other => Err(format!("no game that fits the largest room: {other}")),
    }
}

fn this_program() -> Result<PathBuf, String> {
    std::env::current_exe().map_err(|error| format!("this program: {error}"))
}

/// Measures in a process of its own, so that each run has its own memory and its own peak. The program is this one, or
/// one like it. Gives the numbers that it prints.
fn in_process(program: &Path, shape: &str, numbers: &[u32]) -> Result<Vec<f64>, String> {
    let numbers = numbers.iter().map(|number| number.to_string());
    let output = Command::new(program).args(["--one", shape]).args(numbers).stderr(Stdio::inherit()).output();
    let output = output.map_err(|error| format!("a process for {shape}: {error}"))?;
    let text = String::from_utf8_lossy(&output.stdout).to_string();
    Ok(text.split_whitespace().filter_map(|word| word.parse().ok()).collect())
}

fn measure_in_process(program: &Path, shape: &str, quarters: u32, room: Room) -> Result<[Measured; 2], String> {
    let numbers = in_process(program, shape, &[quarters, room.vertices, room.edges])?;
    let of =
        |&[vertices, edges, seconds, restrict, peak]: &[f64; 5]| Measured { vertices, edges, seconds, restrict, peak };
    match numbers.as_chunks::<5>().0 {
        [library, plain] => Ok([of(library), of(plain)]),
        _ => Err(format!("no measurement of {shape}: {numbers:?}")),
    }
}

fn all_shapes() -> impl Iterator<Item = &'static Shape> {
    SHAPES.iter().chain(&WORST)
}

fn find(name: &str) -> Result<&'static Shape, String> {
    all_shapes().find(|shape| shape.name == name).ok_or(format!("there is no shape {name}"))
}

/// The inner process: prints what was measured.
fn one(arguments: &[String]) -> Result<(), String> {
    let [shape, numbers @ ..] = arguments else { return Err("--one needs a shape".to_string()) };
    let numbers: Vec<u32> = numbers.iter().filter_map(|text| text.parse().ok()).collect();
    if let (Some(shape), &[quarters]) = (find_text(shape), &numbers[..]) {
        return one_text(shape, quarters);
    }
    if let Some(shape) = find_expansion(shape) {
        return one_expansion(shape);
    }
    let [quarters, vertices, edges] = numbers[..] else { return Err("--one needs three numbers".to_string()) };
    for m in measure(&(find(shape)?.make)(quarters), Room { vertices, edges }) {
        println!("{} {} {} {} {}", m.vertices, m.edges, m.seconds, m.restrict, m.peak);
    }
    Ok(())
}

// ---- texts

fn find_text(name: &str) -> Option<&'static TextShape> {
    TEXT_SHAPES.iter().find(|shape| shape.name == name)
}

/// Of one run: library, the plain version that allocates nothing, and the one that does. Seconds are 0 where nothing is
/// written.
#[derive(Clone, Copy)]
struct TextMeasured {
    vertices: f64,
    edges: f64,
    bytes: f64,
    written_bytes: f64,
    write: [f64; 3],
    read: [f64; 3],
}

fn measure_text(TextInput { game, text }: &TextInput) -> TextMeasured {
    let all = [pgsolver::LIBRARY, pgsolver::LENT, pgsolver::PLAIN];
    let mut answer = [0; 4];
    let (mut written_bytes, mut write) = (0.0, [0.0; 3]);
    if let Some(game) = game {
        // Repeats are not written. Filled, so that no page is touched for the first time by a call.
        let mut out = vec![7; text.len()];
        write = in_turn(all, |by| (by.write)(game, &mut out, &mut answer));
        assert_eq!(answer[0], 0, "a game that can be written: {answer:?}");
        written_bytes = answer[1] as f64;
    }
    let Room { vertices, edges } = Room::MOST;
    let mut game = vec![7; game_words(vertices as usize, edges as usize)];
    (pgsolver::PLAIN.read)(text, vertices, edges, &mut game, &mut answer);
    let [0, _, n, m] = answer else { panic!("a text that can be read: {answer:?}") };
    game.truncate(game_words(n as usize, m as usize));
    let read = in_turn(all, |by| (by.read)(text, n, m, &mut game, &mut answer));
    assert_eq!(answer, [0, n, n, m], "a room that just holds the game");
    let (vertices, edges, bytes) = (n as f64, m as f64, text.len() as f64);
    TextMeasured { vertices, edges, bytes, written_bytes, write, read }
}

fn one_text(shape: &TextShape, quarters: u32) -> Result<(), String> {
    let measured = measure_text(&(shape.make)(quarters));
    let TextMeasured { vertices, edges, bytes, written_bytes, write, read } = measured;
    let times: Vec<String> = write.iter().chain(&read).map(f64::to_string).collect();
    println!("{vertices} {edges} {bytes} {written_bytes} {}", times.join(" "));
    Ok(())
}

/// The times of the three.
type Times = fn(&TextMeasured) -> [f64; 3];

struct TextRow {
    name: &'static str,
    quarters: u32,
    runs: Vec<TextMeasured>,
}

impl TextRow {
    fn measure(shape: &TextShape, quarters: u32, runs: usize) -> Result<TextRow, String> {
        let program = this_program()?;
        let one = |_| match in_process(&program, shape.name, &[quarters])?[..] {
            [vertices, edges, bytes, written_bytes, a, b, c, x, y, z] => {
                Ok(TextMeasured { vertices, edges, bytes, written_bytes, write: [a, b, c], read: [x, y, z] })
            }
            _ => Err(format!("no measurement of {}", shape.name)),
        };
        let row = TextRow { name: shape.name, quarters, runs: (0..runs).map(one).collect::<Result<_, _>>()? };
        eprintln!("{}, {quarters} of 4 quarters: read in {} s", row.name, row.spread(|run| run.read[0]).cell(4));
        Ok(row)
    }

    fn spread(&self, of: impl Fn(&TextMeasured) -> f64) -> Spread {
        // There is at least one run.
        Spread::of(self.runs.iter().map(of)).unwrap_or(Spread { count: 0, least: 0.0, median: 0.0, most: 0.0 })
    }

    /// Library beside one of the plain versions, run by run; `None` where nothing is written.
    fn beside(&self, plain: usize, of: Times) -> Option<Spread> {
        let measured = of(&self.runs[0])[plain] > 0.0;
        measured.then(|| self.spread(|run| of(run)[0] / of(run)[plain]))
    }

    /// Times of the three, the library's beside the others', and its megabytes in a second by the median.
    fn print(&self, bytes: f64, of: Times) {
        let (Some(lent), Some(allocating)) = (self.beside(LENT, of), self.beside(ALLOCATING, of)) else { return };
        let TextMeasured { vertices, edges, .. } = self.runs[0];
        let times = [0, LENT, ALLOCATING].map(|i| self.spread(|run| 1000.0 * of(run)[i]));
        println!(
            "| {} | {}x | {vertices} | {edges} | {:.1} | {} | {} | {} | {} | {} | {:.0} |",
            self.name,
            self.quarters,
            bytes / 1e6,
            times[0].cell(1),
            times[LENT].cell(1),
            times[ALLOCATING].cell(1),
            lent.cell(2),
            allocating.cell(2),
            bytes / 1e3 / times[0].median,
        );
    }
}

/// Where the plain versions stand among the times.
const LENT: usize = 1;
const ALLOCATING: usize = 2;

const TEXTS: [&str; 11] = [
    "text",
    "size",
    "vertices",
    "edges",
    "MB",
    "library ms",
    "plain ms",
    "allocating ms",
    "library / plain",
    "library / allocating",
    "library MB/s",
];

fn print_texts(settings: &Settings) -> Result<(), String> {
    let wanted = |shape: &&TextShape| settings.names.is_empty() || settings.names.iter().any(|name| name == shape.name);
    let chosen: Vec<&TextShape> = TEXT_SHAPES.iter().filter(wanted).collect();
    let mut rows = Vec::new();
    for shape in &chosen {
        for &quarters in settings.sizes.as_deref().unwrap_or(shape.sizes) {
            rows.push(TextRow::measure(shape, quarters, settings.runs)?);
        }
    }
    if rows.is_empty() {
        return Ok(());
    }
    println!("### Texts\n");
    chosen.iter().for_each(|shape| println!("- `{}`: {}", shape.name, shape.what));
    println!("\nWriting:\n");
    print_head(&TEXTS);
    rows.iter().for_each(|row| row.print(row.runs[0].written_bytes, |run| run.write));
    println!("\nReading:\n");
    print_head(&TEXTS);
    rows.iter().for_each(|row| row.print(row.runs[0].bytes, |run| run.read));
    println!();
    print_asked_of_texts(&rows);
    Ok(())
}

/// What the rows say of the speed that is asked of both calls, beside the plain version that allocates nothing; and the
/// same beside the one that does, of which nothing is asked.
fn print_asked_of_texts(rows: &[TextRow]) {
    let calls: [(&str, Times); 2] = [("write", |run| run.write), ("read", |run| run.read)];
    let asked = format!("; asked at most {ASKED_OF_PLAIN}");
    let others = [(LENT, "plain", &asked[..]), (ALLOCATING, "allocating", "")];
    for ((name, of), (plain, what, asked)) in calls.iter().flat_map(|call| others.map(|other| (call, other))) {
        let ratios = rows.iter().filter_map(|row| Some((row, row.beside(plain, *of)?.median)));
        let Some(spread) = Spread::of(ratios.clone().map(|(_, ratio)| ratio)) else { continue };
        let above = ratios.filter(|(_, ratio)| *ratio > ASKED_OF_PLAIN + 0.005);
        let above: Vec<String> = above.map(|(row, _)| format!("{} {}x", row.name, row.quarters)).collect();
        let above = if above.is_empty() { "none".to_string() } else { above.join(", ") };
        println!("- {name}, library / {what}: {:.2} to {:.2}{asked}", spread.least, spread.most);
        println!("- above {ASKED_OF_PLAIN}: {above}");
    }
    println!();
}

// ---- expansions

fn find_expansion(name: &str) -> Option<&'static expansions::Shape> {
    expansions::SHAPES.iter().find(|shape| shape.name == name)
}

/// Of one run: the answer's case and first number, and the seconds of a call by library and plain.
#[derive(Clone, Copy)]
struct ExpansionMeasured {
    case: f64,
    first: f64,
    seconds: [f64; 2],
}

fn measure_expansion(input: &expansion::Input) -> ExpansionMeasured {
    let expansion::Input { labels, actions, regulars, formula } = input;
    let (mut out, mut answer) = (vec![7; expansion::EXPANDED], [0; 4]);
    let mut call =
        |by: expansion::Implementation| (by.expand)(labels, actions, regulars, formula, &mut out, &mut answer);
    let start = processor_time();
    call(expansion::LIBRARY);
    let once = processor_time() - start;
    // A call takes microseconds: so many that all of them take a millisecond or more.
    let calls = (1e-3 / once).clamp(1.0, 10_000.0) as u32;
    let both = [expansion::LIBRARY, expansion::PLAIN];
    let seconds = in_turn(both, |by| (0..calls).for_each(|_| call(by))).map(|seconds| seconds / calls as f64);
    ExpansionMeasured { case: answer[0] as f64, first: answer[1] as f64, seconds }
}

fn one_expansion(shape: &expansions::Shape) -> Result<(), String> {
    let ExpansionMeasured { case, first, seconds: [library, plain] } = measure_expansion(&(shape.make)());
    println!("{case} {first} {library} {plain}");
    Ok(())
}

const EXPANSIONS: [&str; 5] = ["input", "result", "library µs", "plain µs", "library / plain"];

fn print_expansion(shape: &expansions::Shape, runs: usize) -> Result<(), String> {
    let program = this_program()?;
    let one = |_| match in_process(&program, shape.name, &[])?[..] {
        [case, first, library, plain] => Ok(ExpansionMeasured { case, first, seconds: [library, plain] }),
        _ => Err(format!("no measurement of {}", shape.name)),
    };
    let runs: Vec<ExpansionMeasured> = (0..runs).map(one).collect::<Result<_, String>>()?;
    let cell = |of: fn(&ExpansionMeasured) -> f64, digits| {
        Spread::of(runs.iter().map(of)).map_or("-".to_string(), |spread| spread.cell(digits))
    };
    let ExpansionMeasured { case, first, .. } = runs[0];
    let result = if case == 0.0 { format!("{} nodes", (first - 1.0) / 2.0) } else { format!("refused {first}") };
    let (library, plain) = (cell(|run| 1e6 * run.seconds[0], 1), cell(|run| 1e6 * run.seconds[1], 1));
    let ratio = cell(|run| run.seconds[0] / run.seconds[1], 2);
    println!("| {} | {result} | {library} | {plain} | {ratio} |", shape.name);
    Ok(())
}

fn print_expansions(settings: &Settings) -> Result<(), String> {
    let wanted =
        |shape: &&expansions::Shape| settings.names.is_empty() || settings.names.iter().any(|name| name == shape.name);
    let chosen: Vec<&expansions::Shape> = expansions::SHAPES.iter().filter(wanted).collect();
    if chosen.is_empty() {
        return Ok(());
    }
    println!("### Expansions\n");
    chosen.iter().for_each(|shape| println!("- `{}`: {}", shape.name, shape.what));
    println!();
    print_head(&EXPANSIONS);
    chosen.into_iter().try_for_each(|shape| print_expansion(shape, settings.runs))?;
    println!();
    Ok(())
}

// ---- the original

struct Original {
    program: PathBuf,
    /// Seconds of processor time.
    patience: f64,
}

impl Original {
    /// At most so many runs, and as many as there is patience for; none if the first takes too long.
    fn runs(&self, model: &Model, runs: usize) -> Result<Vec<Measured>, String> {
        let file = std::env::temp_dir().join(format!("hingrezh-bench-{}", std::process::id()));
        std::fs::write(&file, [bytes_of(&[0]), model.to_bytes()].concat())
            .map_err(|error| format!("{}: {error}", file.display()))?;
        let (mut spent, mut measured) = (0.0, Vec::new());
        let outcome = loop {
            if measured.len() == runs {
                break Ok(());
            }
            match self.run(&file, self.patience - spent) {
                Ok((time, Some(run))) => {
                    spent += time;
                    measured.push(run);
                }
                Ok((_, None)) => break Ok(()),
                Err(what) => break Err(what),
            }
        };
        // It is in the folder for such files, and its name is used again: nothing is lost if it stays.
        let _ = std::fs::remove_file(&file);
        outcome.map(|()| measured)
    }

    /// By the oracle's own benchmark, from a file in its framing; `None` if it takes too long. With it the processor
    /// time that the whole run took.
    fn run(&self, file: &PathBuf, patience: f64) -> Result<(f64, Option<Measured>), String> {
        let failed = |error: std::io::Error| format!("{}: {error}", self.program.display());
        let mut command = Command::new(&self.program);
        let mut child = command.arg("--read").arg(file).stdout(Stdio::piped()).spawn().map_err(failed)?;
        let mut spent = 0.0;
        let status = loop {
            spent = processor_time_of(child.id()).unwrap_or(spent);
            match child.try_wait().map_err(failed)? {
                None if spent <= patience => std::thread::sleep(Duration::from_millis(20)),
                status => break status,
            }
        };
        if status.is_none() {
            // It may just have ended; then there is nothing to stop.
            let _ = child.kill();
        }
        let output = child.wait_with_output().map_err(failed)?;
        let line = String::from_utf8_lossy(&output.stdout);
        match status {
            None => Ok((spent, None)),
            Some(status) if !status.success() => Err(format!("{} failed: {status}", self.program.display())),
            Some(_) => match read_measured(&line) {
                Some(measured) => Ok((spent, Some(measured))),
                None => Err(format!("the oracle's line has another form: {line}")),
            },
        }
    }
}

/// Its line: `..: N vertices, M edges, S s CPU (..) ..; restrict with coding S s; peak P MB, ..`.
fn read_measured(line: &str) -> Option<Measured> {
    let before = |what: &str| line[..line.find(what)?].rsplit(' ').next()?.parse().ok();
    let after = |what: &str| line[line.find(what)? + what.len()..].split_whitespace().next()?.parse().ok();
    Some(Measured {
        vertices: before(" vertices")?,
        edges: before(" edges")?,
        seconds: before(" s CPU")?,
        restrict: after("restrict with coding ")?,
        peak: after("; peak ")?,
    })
}

struct Settings {
    original: Option<Original>,
    /// The `bench` of an earlier library.
    before: Option<PathBuf>,
    runs: usize,
    /// `None` for the usual ones.
    sizes: Option<Vec<u32>>,
    names: Vec<String>,
}

/// One shape at one size by all three, a measurement for each run.
struct Row {
    name: &'static str,
    quarters: u32,
    library: Vec<Measured>,
    plain: Vec<Measured>,
    /// `None` without an oracle; none in it if it took too long.
    original: Option<Vec<Measured>>,
    patience: f64,
}

fn median(measured: &[Measured], of: fn(&Measured) -> f64) -> Spread {
    // There is at least one run.
    Spread::of(measured.iter().map(of)).unwrap_or(Spread { count: 0, least: 0.0, median: 0.0, most: 0.0 })
}

impl Row {
    fn measure(shape: &Shape, quarters: u32, settings: &Settings) -> Result<Row, String> {
        let model = (shape.make)(quarters);
        let room = exact_room(&model)?;
        let program = this_program()?;
        let (mut library, mut plain) = (Vec::new(), Vec::new());
        for _ in 0..settings.runs {
            let [one, other] = measure_in_process(&program, shape.name, quarters, room)?;
            library.push(one);
            plain.push(other);
        }
        let original = settings.original.as_ref().map(|original| original.runs(&model, settings.runs)).transpose()?;
        let same = |m: &Measured| (m.vertices, m.edges) == (room.vertices as f64, room.edges as f64);
        if !original.iter().flatten().all(same) {
            return Err(format!("{}: the original's game has another size", shape.name));
        }
        let patience = settings.original.as_ref().map_or(0.0, |original| original.patience);
        let row = Row { name: shape.name, quarters, library, plain, original, patience };
        eprintln!("{}, {quarters} of 4 quarters: {} s", row.name, median(&row.library, |m| m.seconds).cell(4));
        Ok(row)
    }

    /// Library beside plain, run by run.
    fn beside_plain(&self) -> Option<Spread> {
        Spread::of(self.library.iter().zip(&self.plain).map(|(library, plain)| library.seconds / plain.seconds))
    }

    /// The original beside the library, by their medians.
    fn original_beside(&self) -> Option<f64> {
        let original = Spread::of(self.original.as_ref()?.iter().map(|m| m.seconds))?;
        Some(original.median / median(&self.library, |m| m.seconds).median)
    }

    fn original_beside_cell(&self) -> String {
        let at_least = self.patience / median(&self.library, |m| m.seconds).median;
        match (&self.original, self.original_beside()) {
            (None, _) => "-".to_string(),
            (_, Some(ratio)) => format!("{ratio:.1}"),
            (_, None) => format!("> {at_least:.0}"),
        }
    }

    fn original_cell(&self, text: impl Fn(&[Measured]) -> String) -> String {
        match self.original.as_deref() {
            None => "-".to_string(),
            Some([]) => format!("> {} s", self.patience),
            Some(runs) => text(runs),
        }
    }

    fn print_times(&self) {
        let milliseconds: fn(&Measured) -> f64 = |m| 1000.0 * m.seconds;
        let (library, plain) = (median(&self.library, milliseconds), median(&self.plain, milliseconds));
        let Measured { vertices, edges, .. } = self.library[0];
        println!(
            "| {} | {}x | {vertices} | {edges} | {} | {} | {} |",
            self.name,
            self.quarters,
            library.cell(1),
            plain.cell(1),
            self.beside_plain().map_or("-".to_string(), |ratio| ratio.cell(2)),
        );
    }

    fn print_original(&self) {
        println!(
            "| {} | {}x | {} | {} |",
            self.name,
            self.quarters,
            self.original_cell(|runs| median(runs, |m| m.seconds).cell(3)),
            self.original_beside_cell()
        );
    }

    fn print_memory_and_restriction(&self) {
        let memory = |runs: &[Measured]| format!("{:.0}", median(runs, |m| m.peak).most);
        println!(
            "| {} | {}x | {} | {} | {} | {} | {} | {} |",
            self.name,
            self.quarters,
            memory(&self.library),
            memory(&self.plain),
            self.original_cell(memory),
            median(&self.library, |m| 1000.0 * m.restrict).cell(1),
            median(&self.plain, |m| 1000.0 * m.restrict).cell(1),
            self.original_cell(|runs| median(runs, |m| m.restrict).cell(3))
        );
    }
}

const TIMES: [&str; 7] = ["shape", "size", "vertices", "edges", "library ms", "plain ms", "library / plain"];

const ORIGINAL: [&str; 4] = ["shape", "size", "Rust text s", "Rust text / library"];

const MEMORY_AND_RESTRICTION: [&str; 8] =
    ["shape", "size", "library MB", "plain MB", "Rust text MB", "restrict: library ms", "plain ms", "Rust text s"];

fn print_table(columns: &[&str], rows: &[Row], print: fn(&Row)) {
    if rows.is_empty() {
        return;
    }
    print_head(columns);
    rows.iter().for_each(print);
    println!();
}

fn print_head(columns: &[&str]) {
    println!("| {} |\n|{}", columns.join(" | "), "---|".repeat(columns.len()));
}

/// The machine in general terms, and how busy it was: with a load of 1 or more something else was running.
fn print_machine() {
    let cores = std::thread::available_parallelism().map_or(0, |n| n.get());
    let memory = std::fs::read_to_string("/proc/meminfo").unwrap_or_default();
    let kb = memory.split_whitespace().nth(1).and_then(|word| word.parse::<f64>().ok()).unwrap_or(0.0);
    let load = std::fs::read_to_string("/proc/loadavg").unwrap_or_default();
    let load = load.split_whitespace().next().unwrap_or("unknown").to_string();
    let (arch, os) = (std::env::consts::ARCH, std::env::consts::OS);
    println!(
        "Machine: {cores} cores of {arch}, {:.0} GB of memory, {os}. Load before the first run: {load}.",
        kb / 1e6
    );
}

/// What the rows say of the shapes that a speed is asked of.
fn print_asked(rows: &[Row]) {
    let rows: Vec<&Row> = rows.iter().filter(|row| ASKED.contains(&row.name)).collect();
    let medians = |row: &&Row| row.beside_plain().map(|ratio| ratio.median);
    let Some(beside) = Spread::of(rows.iter().filter_map(medians)) else { return };
    // As the table shows it, with two digits.
    let above = |row: &&&Row| medians(row).is_some_and(|ratio| ratio > ASKED_OF_PLAIN + 0.005);
    let above: Vec<String> = rows.iter().filter(above).map(|row| format!("{} {}x", row.name, row.quarters)).collect();
    let above = if above.is_empty() { "none".to_string() } else { above.join(", ") };
    println!("Of those rows that a speed is asked of ({}), by medians:\n", ASKED.join(", "));
    println!("- library / plain: {:.2} to {:.2}; asked at most {ASKED_OF_PLAIN}", beside.least, beside.most);
    println!("- above that: {above}");
    if let Some(times) = Spread::of(rows.iter().filter_map(|row| row.original_beside())) {
        println!("- Rust text / library: {:.1} to {:.1}; asked at least {ASKED_OF_ORIGINAL}", times.least, times.most);
    }
    println!();
}

/// The two tables of runs: their shapes and the usual sizes.
const TABLES: [(&str, &[Shape], &[u32]); 2] = [("Shapes", &SHAPES, &[1, 2, 4]), ("Worst cases", &WORST, &[4])];

fn chosen_of<'a>(shapes: &'a [Shape], settings: &Settings) -> Vec<&'a Shape> {
    let wanted = |shape: &&Shape| settings.names.is_empty() || settings.names.iter().any(|name| name == shape.name);
    shapes.iter().filter(wanted).collect()
}

/// One shape at one size by the library and by an earlier one, in processes that take turns.
fn print_beside_before(before: &Path, shape: &Shape, quarters: u32, runs: usize) -> Result<(), String> {
    let (program, room) = (this_program()?, exact_room(&(shape.make)(quarters))?);
    let milliseconds = |program: &Path| {
        measure_in_process(program, shape.name, quarters, room).map(|[library, _]| 1000.0 * library.seconds)
    };
    let pairs = (0..runs).map(|_| Ok((milliseconds(before)?, milliseconds(&program)?)));
    let pairs: Vec<(f64, f64)> = pairs.collect::<Result<_, String>>()?;
    let cell = |of: fn(&(f64, f64)) -> f64, digits| {
        Spread::of(pairs.iter().map(of)).map_or("-".to_string(), |spread| spread.cell(digits))
    };
    let (earlier, now) = (cell(|pair| pair.0, 1), cell(|pair| pair.1, 1));
    println!("| {} | {quarters}x | {earlier} | {now} | {} |", shape.name, cell(|pair| pair.1 / pair.0, 2));
    Ok(())
}

fn print_before(before: &Path, settings: &Settings) -> Result<(), String> {
    if let Some(text) = settings.names.iter().find(|name| find_text(name).is_some()) {
        return Err(format!("--before measures runs, and {text} is a text"));
    }
    if let Some(expansion) = settings.names.iter().find(|name| find_expansion(name).is_some()) {
        return Err(format!("--before measures runs, and {expansion} is an expansion"));
    }
    print_machine();
    println!("Runs: {}.\n", settings.runs);
    print_head(&["shape", "size", "before ms", "now ms", "now / before"]);
    for (_, shapes, usual) in TABLES {
        for shape in chosen_of(shapes, settings) {
            for &quarters in settings.sizes.as_deref().unwrap_or(usual) {
                print_beside_before(before, shape, quarters, settings.runs)?;
            }
        }
    }
    Ok(())
}

fn print_all(settings: &Settings) -> Result<(), String> {
    print_machine();
    println!("Runs: {}.\n", settings.runs);
    for (title, shapes, usual) in TABLES {
        let chosen = chosen_of(shapes, settings);
        let mut rows = Vec::new();
        for shape in &chosen {
            for &quarters in settings.sizes.as_deref().unwrap_or(usual) {
                rows.push(Row::measure(shape, quarters, settings)?);
            }
        }
        if rows.is_empty() {
            continue;
        }
        println!("### {title}\n");
        chosen.iter().for_each(|shape| println!("- `{}`: {}", shape.name, shape.what));
        println!();
        print_table(&TIMES, &rows, Row::print_times);
        print_asked(&rows);
        if settings.original.is_some() {
            print_table(&ORIGINAL, &rows, Row::print_original);
        }
        rows.retain(|row| row.quarters == 4);
        print_table(&MEMORY_AND_RESTRICTION, &rows, Row::print_memory_and_restriction);
    }
    print_texts(settings)?;
    print_expansions(settings)
}

fn settings(arguments: Vec<String>) -> Result<Settings, String> {
    let options = Options::read(arguments, &["--oracle", "--before", "--runs", "--seconds", "--sizes"])?;
    for name in options.names.iter().filter(|name| find_text(name).is_none() && find_expansion(name).is_none()) {
        find(name)?;
    }
    let size = |text: &str| match text.parse() {
        Ok(quarters @ 1..=4) => Ok(quarters),
        _ => Err(format!("--sizes: {text} is none of 1, 2, 3, 4")),
    };
    let sizes = options.value("--sizes").map(|list| list.split(',').map(size).collect()).transpose()?;
    let patience = options.number("--seconds", 20)? as f64;
    let program = options.value("--oracle").map(program_at).transpose()?;
    let original = program.map(|program| Original { program, patience });
    let earlier = |path: &str| program_at(path).map_err(|_| format!("there is no program at {path}"));
    let before = options.value("--before").map(earlier).transpose()?;
    Ok(Settings { original, before, runs: options.count("--runs", 5)? as usize, sizes, names: options.names })
}

fn run(arguments: Vec<String>) -> Result<(), String> {
    if arguments.first().is_some_and(|argument| argument == "--one") {
        return one(&arguments[1..]);
    }
    let settings = settings(arguments)?;
    if let Some(before) = &settings.before {
        return print_before(before, &settings);
    }
    if settings.original.is_none() {
        println!("No oracle was named: library and plain only.\n");
    }
    print_all(&settings)
}

fn main() -> ExitCode {
    let arguments: Vec<String> = std::env::args().skip(1).collect();
    if options::wants_help(&arguments) {
        let names = all_shapes().map(|shape| shape.name).chain(TEXT_SHAPES.iter().map(|shape| shape.name));
        let names = names.chain(expansions::SHAPES.iter().map(|shape| shape.name));
        println!("{USAGE}{}", names.collect::<Vec<_>>().join(" "));
        return ExitCode::SUCCESS;
    }
    match run(arguments) {
        Ok(()) => ExitCode::SUCCESS,
        Err(what) => {
            eprintln!("bench: {what}; bench --help says how it is used");
            ExitCode::from(2)
        }
    }
}
