//! Writes stored runs into the folder of the crates: `stdin` and `stdout` of the programs `replay`, `texts`,
//! `pgsolver_runs` and `expansions`, `stdout` of `restricts`. These are calls as records and the lines that they must
//! print (the formats are in check/record.rs), inputs of the thin program and their texts (check/texts.rs), PGSolver
//! texts written and read (check/pgsolver/stored.rs), and formulas expanded (check/expansion/stored.rs). The answers of
//! accepted words are the oracle's, given their states, items and counts by check/columns.rs, cut and given their room
//! by check/finished.rs; those of refused words follow the rules' refusals as the plain implementation states them. Of
//! PGSolver text the oracle knows nothing, and of expanded formulas only their games: there the outcomes are the plain
//! implementation's, and those of the cases are written down by hand, too. The library is not asked.
use hingrezh::check::call::{Call, LIBRARY, Outcome, PLAIN, perform, show, unlawful};
use hingrezh::check::cases;
use hingrezh::check::columns;
use hingrezh::check::damage::damage;
use hingrezh::check::expansion::{call as expansion, kinds as expansion_kinds, stored as expansions};
use hingrezh::check::finished::expected;
use hingrezh::check::generate::{Random, Sizes, all_formulas, random_game, random_model, table};
use hingrezh::check::kinds::{self, KINDS, NOT_IN_RECORDS};
use hingrezh::check::options;
use hingrezh::check::oracle::{Oracle, Reply, Request, original_words};
use hingrezh::check::pgsolver::{call as pgsolver, stored};
use hingrezh::check::places;
use hingrezh::check::record::{self, RECORD, line, record};
use hingrezh::check::texts;
use hingrezh::{Model, words_of};
use std::collections::{BTreeMap, HashSet};
use std::process::ExitCode;

const USAGE: &str = "\
usage: store ORACLE CRATES [COUNT]
       store --check CRATES
       store --table CRATES

CRATES is the folder of the crates. The first writes the stored runs of the programs replay, restricts, texts,
pgsolver_runs and expansions anew: their answers come from ORACLE, the program that runs the Rust original; of the last
two, which it knows too little of, from the plain Rust implementation. COUNT says how many random models there are
(200). --check performs what is stored with the library and with the plain Rust implementation, and compares. --table
prints which refusals are stored at which kinds of place, for docs/STORED-RUNS.md.

exit status: 0, or 1 if something is missing, differs or can't be written";

/// What lent slices hold before a call: a short word that is not 0, so that lines stay short and clearing shows.
const FILL: u32 = 9;
const FILL_OF_RESTRICTS: u32 = 7;

/// Every third formula of up to three nodes on two systems.
fn small_models() -> Vec<Model> {
    let formulas: Vec<Vec<u32>> = (1..=3).flat_map(|size| all_formulas(size, &[0, 1])).step_by(3).collect();
    let systems: [&[u32]; 2] = [&[1, 1, 0, 1, 0, 0], &[2, 3, 0, 2, 1, 0, 1, 0, 1, 1, 0]];
    let model = |(i, formula): (usize, Vec<u32>)| Model {
        labels: vec![2, 1, 0, 7],
        system: systems[i % 2].to_vec(),
        actions: table(&[(2, 0), (5, 0), (2, 0)]),
        formula,
    };
    formulas.into_iter().enumerate().map(model).collect()
}

fn random_small(random: &mut Random) -> Model {
    let permuted = random.chance(20);
    random_model(random, Sizes { formula: 9, states: 4, permuted })
}

/// A call on a model with a room and a limit around what its game needs, or any small ones.
fn with_room(random: &mut Random, model: Model) -> Call {
    let built = perform(&Call::build(model.clone(), 64, 256, u32::MAX), PLAIN, 0);
    let [_, steps, n, m] = built.answer;
    let (n, m) = if built.answer[0] == 0 { (n, m) } else { (16, 32) };
    let less = random.pick(&[0, 0, 0, 1]);
    let limit = random.within(0, steps as usize) as u32;
    let limit = random.pick(&[steps, u32::MAX, limit]);
    Call::build(model, (n - less).clamp(1, 16), (m + random.below(2) as u32).clamp(1, 32), limit)
}

/// All calls to be stored, those too large for a record among them.
fn calls(random: &mut Random, count: usize) -> Vec<Call> {
    let mut calls: Vec<Call> = cases::all().into_iter().map(|case| case.call).collect();
    for model in small_models() {
        calls.push(with_room(random, model));
    }
    for _ in 0..count {
        let model = random_small(random);
        calls.push(with_room(random, model));
        let model = random_model(random, Sizes { formula: 4, states: 2, permuted: false });
        let mut damaged = with_room(random, model);
        (0..random.pick(&[1, 1, 2])).for_each(|_| damage(random, &mut damaged));
        calls.push(damaged);
        if random.chance(25) {
            calls.push(Call::restrict(random_game(random, 8)));
            let mut damaged = Call::restrict(random_game(random, 3));
            (0..random.pick(&[1, 1, 2])).for_each(|_| damage(random, &mut damaged));
            calls.push(damaged);
        }
    }
    calls.extend(places::all().into_iter().map(|case| case.call));
    calls
}

/// The answers written down for refusals at every kind of place must be those of the rules.
fn as_written_down() -> Result<(), String> {
    for case in places::all() {
        let answer = perform(&case.call, PLAIN, FILL).answer;
        if answer != case.answer {
            return Err(format!("{answer:?} instead of {:?}\n{}", case.answer, case.call.describe()));
        }
    }
    Ok(())
}

/// Small records only, each once.
fn records(calls: Vec<Call>) -> Vec<(Call, Vec<u8>)> {
    let mut seen = HashSet::new();
    let stored = |call: Call| record(&call, FILL).map(|bytes| (call, bytes));
    calls.into_iter().filter_map(stored).filter(|(_, bytes)| seen.insert(bytes.clone())).collect()
}

/// What a call must leave behind; `reply` is the oracle's word on its model or game.
fn outcome(call: &Call, reply: &Reply, fill: u32) -> Result<Outcome, String> {
    let plain = perform(call, PLAIN, fill);
    let refused = plain.answer[0] == 2 && plain.answer[1] != 60;
    match (reply, call) {
        // The order and places of refusals are the rules' own; the oracle only says whether the words are valid.
        (_, _) if refused && [1, 2, 12, 22, 32, 42].contains(&plain.answer[1]) => Ok(plain),
        (Reply::NotValid, _) if refused => Ok(plain),
        (Reply::Words(words), Call::Build { model, vertices, edges, limit, game, work }) => {
            let finished = columns::completed(model, words)?;
            let expected = expected(&finished, *vertices, *edges, *limit).ok_or("numbers of no walk")?;
            let mut slice = expected.game;
            slice.resize(*game, 0);
            Ok(Outcome { answer: expected.answer, game: slice, map: vec![], work: vec![0; *work], intact: true })
        }
        (Reply::Words(words), Call::Restrict { game, out, work, .. }) => {
            let (n, m) = (words[0], words[1]);
            let (new, map) = words.split_at(original_words(n as usize, m as usize));
            let mut slice = columns::carried(game, map).into_game(new);
            slice.resize(*out, 0);
            Ok(Outcome { answer: [0, n, n, m], game: slice, map: map.to_vec(), work: vec![0; *work], intact: true })
        }
        _ => Err(format!("plain answers {:?}, the oracle {reply:?}", plain.answer)),
    }
}

fn request(call: &Call) -> Request<'_> {
    match call {
        // The oracle makes all labels it is told of; an empty game stands for a model with too many.
        Call::Build { model, .. } if model.labels.first().is_some_and(|&l| l > 4_097) => Request::Restrict(&[]),
        Call::Build { model, .. } => Request::Translate(model),
        Call::Restrict { game, .. } => Request::Restrict(game),
    }
}

fn write(path: String, bytes: &[u8]) -> Result<(), String> {
    std::fs::write(&path, bytes).map_err(|error| format!("{path}: {error}"))
}

/// What calls must leave behind, from the oracle and the plain implementation, which must agree.
fn outcomes(calls: &[&Call], fill: u32, oracle: &Oracle) -> Result<Vec<Outcome>, String> {
    let requests: Vec<Request> = calls.iter().map(|call| request(call)).collect();
    let replies = oracle.ask(&requests)?;
    let checked = |(call, reply): (&&Call, Reply)| {
        let outcome = outcome(call, &reply, fill).map_err(|what| format!("{what}\n{}", call.describe()))?;
        if unlawful(&outcome, fill).is_some() || outcome != perform(call, PLAIN, fill) {
            return Err(format!("the plain implementation answers otherwise\n{}", call.describe()));
        }
        Ok(outcome)
    };
    calls.iter().zip(replies).map(checked).collect()
}

fn store_calls(folder: &str, oracle: &Oracle, count: usize) -> Result<(), String> {
    as_written_down()?;
    let records = records(calls(&mut Random::new(11), count));
    let calls: Vec<&Call> = records.iter().map(|(call, _)| call).collect();
    let (mut input, mut output, mut answers) = (Vec::new(), String::new(), BTreeMap::new());
    let mut kinds = HashSet::new();
    for ((call, bytes), outcome) in records.iter().zip(outcomes(&calls, FILL, oracle)?) {
        let [case, number, place, _] = outcome.answer;
        *answers.entry((case, if case == 2 { number } else { 0 })).or_insert(0) += 1;
        if case == 2 {
            kinds.insert((number, kinds::kind(call, number, place)));
        }
        input.extend(bytes);
        output += &line(&outcome);
    }
    for (number, kind) in all_kinds() {
        if !kinds.contains(&(number, kind.to_string())) && !NOT_IN_RECORDS.contains(&(number, kind)) {
            return Err(format!("refusal {number} is not stored at: {kind}"));
        }
    }
    write(format!("{folder}/stdin"), &input)?;
    write(format!("{folder}/stdout"), output.as_bytes())?;
    let (all, sizes) = (records.len(), (input.len(), output.len()));
    println!("{all} records, {sizes:?} bytes; (case, refusal): count {answers:?}");
    Ok(())
}

fn all_kinds() -> impl Iterator<Item = (u32, &'static str)> {
    KINDS.iter().flat_map(|(number, kinds)| kinds.iter().map(|kind| (*number, *kind)))
}

fn store_texts(folder: &str, oracle: &Oracle) -> Result<(), String> {
    let mut seen = HashSet::new();
    let inputs: Vec<Vec<u8>> = texts::inputs().into_iter().filter(|input| seen.insert(input.clone())).collect();
    let runs: Vec<Option<Call>> = inputs.iter().map(|input| texts::model_of(input).map(texts::run_of)).collect();
    let calls: Vec<&Call> = runs.iter().flatten().collect();
    let mut outcomes = outcomes(&calls, FILL, oracle)?.into_iter();
    let mut bytes = Vec::new();
    for (input, run) in inputs.iter().zip(&runs) {
        if texts::refused_bytes(input).is_some() != run.is_none() {
            return Err(format!("two readings of {} bytes differ", input.len()));
        }
        let outcome = run.as_ref().and_then(|_| outcomes.next());
        bytes.extend(texts::record(input, &texts::text_of(outcome.as_ref())));
    }
    write(format!("{folder}/stdin"), &bytes)?;
    write(format!("{folder}/stdout"), format!("{} records, 0 differences\n", inputs.len()).as_bytes())?;
    println!("{} texts, {} bytes", inputs.len(), bytes.len());
    Ok(())
}

/// The lines of `restricts`, whose games stay as they are.
fn store_restrictions(folder: &str, oracle: &Oracle) -> Result<(), String> {
    let calls = stored_restrictions(folder)?;
    let outcomes = outcomes(&calls.iter().collect::<Vec<&Call>>(), FILL_OF_RESTRICTS, oracle)?;
    write(format!("{folder}/stdout"), outcomes.iter().map(line).collect::<String>().as_bytes())
}

fn read(path: String) -> Result<Vec<u8>, String> {
    std::fs::read(&path).map_err(|error| format!("{path}: {error}"))
}

/// PGSolver texts written and read: small records only, each once.
fn store_pgsolver(folder: &str) -> Result<(), String> {
    if let Some(what) = stored::not_as_written_down() {
        return Err(what);
    }
    let (mut seen, mut input, mut output, mut answers) = (HashSet::new(), Vec::new(), String::new(), BTreeMap::new());
    for call in stored::all() {
        let Some(bytes) = stored::coded(&call).filter(|bytes| seen.insert(bytes.clone())) else { continue };
        let outcome = pgsolver::perform(&call, pgsolver::PLAIN, stored::FILL);
        *answers.entry((call.name(), stored::cause(&call, outcome.answer))).or_insert(0) += 1;
        input.extend(bytes);
        output += &stored::line(&outcome);
    }
    for (number, kind) in all_kinds().filter(|kind| (51..=53).contains(&kind.0) && !NOT_IN_RECORDS.contains(kind)) {
        if !answers.contains_key(&("write", (number, kind.to_string()))) {
            return Err(format!("refusal {number} of writing is not stored at: {kind}"));
        }
    }
    write(format!("{folder}/stdin"), &input)?;
    write(format!("{folder}/stdout"), output.as_bytes())?;
    println!("{} records of PGSolver text, {:?} bytes", seen.len(), (input.len(), output.len()));
    Ok(())
}

fn stored_pgsolver(folder: &str) -> Result<Vec<pgsolver::Call>, String> {
    stored::calls(&read(format!("{folder}/stdin"))?).ok_or("half a record of PGSolver text".to_string())
}

/// The table of PGSolver texts in docs/STORED-RUNS.md.
fn print_pgsolver_table(folder: &str) -> Result<(), String> {
    let mut counts = BTreeMap::new();
    for call in stored_pgsolver(folder)? {
        let answer = pgsolver::perform(&call, pgsolver::PLAIN, stored::FILL).answer;
        *counts.entry((call.name(), stored::cause(&call, answer))).or_insert(0) += 1;
    }
    for ((call, (number, cause)), count) in counts {
        let answer = if number == 0 { "done".to_string() } else { number.to_string() };
        println!("| {call} | {answer} | {cause} | {count} |");
    }
    Ok(())
}

/// Writes and reads what is stored with the library and both plain versions; gives how many calls there are.
fn check_pgsolver(folder: &str) -> Result<usize, String> {
    let calls = stored_pgsolver(folder)?;
    let output = read(format!("{folder}/stdout"))?;
    for by in [pgsolver::LIBRARY, pgsolver::LENT, pgsolver::PLAIN] {
        let line = |call: &pgsolver::Call| stored::line(&pgsolver::perform(call, by, stored::FILL));
        let lines: Vec<String> = calls.iter().map(line).collect();
        let mut stored = output.split_inclusive(|&byte| byte == b'\n');
        if let Some(i) = lines.iter().position(|line| stored.next() != Some(line.as_bytes())) {
            return Err(format!("{}: PGSolver text {i} differs\n{}", by.name, calls[i].describe()));
        }
        if stored.next().is_some() {
            return Err("more lines than records of PGSolver text".to_string());
        }
    }
    Ok(calls.len())
}

/// Formulas expanded: records that fit the program, each once.
fn store_expansions(folder: &str) -> Result<(), String> {
    if let Some(what) = expansions::not_as_written_down() {
        return Err(what);
    }
    let (mut seen, mut input, mut output, mut answers) = (HashSet::new(), Vec::new(), String::new(), BTreeMap::new());
    for call in expansions::all() {
        let Some(bytes) = expansions::coded(&call).filter(|bytes| seen.insert(bytes.clone())) else { continue };
        let outcome = expansion::perform(&call, expansion::PLAIN, expansions::FILL);
        *answers.entry(refused_expansion(&call, &outcome)).or_insert(0) += 1;
        input.extend(bytes);
        output += &expansions::line(&outcome);
    }
    let missing = |(number, kind): &(u32, &str)| {
        !answers.contains_key(&Some((*number, kind.to_string()))) && !NOT_IN_EXPANSIONS.contains(&(*number, kind))
    };
    if let Some((number, kind)) = expansion_kinds::all().find(missing) {
        return Err(format!("refusal {number} of expanding is not stored at: {kind}"));
    }
    write(format!("{folder}/stdin"), &input)?;
    write(format!("{folder}/stdout"), output.as_bytes())?;
    println!("{} records of expansions, {:?} bytes", seen.len(), (input.len(), output.len()));
    Ok(())
}

/// Kinds that need more words than a record of `expansions` has.
const NOT_IN_EXPANSIONS: [(u32, &str); 1] = [(12, "A too large")];

/// The number and the kind of place of a refused expansion.
fn refused_expansion(call: &expansion::Call, outcome: &expansion::Outcome) -> Option<(u32, String)> {
    let [case, number, place, _] = outcome.answer;
    (case == 2).then(|| (number, expansion_kinds::kind(call, number, place)))
}

fn stored_expansions(folder: &str) -> Result<Vec<expansion::Call>, String> {
    let words = words_of(&read(format!("{folder}/stdin"))?).map_err(|fault| fault.to_string())?;
    expansions::calls(&words).ok_or("half a record of expansions".to_string())
}

/// The table of expansions in docs/STORED-RUNS.md, of what no other call has: kinds of place, the smallest input, how
/// many.
fn print_expansions_table(folder: &str) -> Result<(), String> {
    let (mut rows, mut done) = (BTreeMap::new(), 0);
    for call in stored_expansions(folder)? {
        let outcome = expansion::perform(&call, expansion::PLAIN, expansions::FILL);
        let Some((number, kind)) = refused_expansion(&call, &outcome) else {
            done += 1;
            continue;
        };
        let about = expansion_kinds::about(&call, number);
        let size = (!expansion_kinds::rest_is_base(&call, number), about.concat().len(), about);
        let (smallest, count) = rows.entry((number, kind)).or_insert((size.clone(), 0));
        *count += 1;
        if size < *smallest {
            *smallest = size;
        }
    }
    println!("| done | | | {done} |");
    let own = expansion_kinds::all().filter(|(number, _)| !(11..=45).contains(number));
    for (number, kind) in own {
        let row = rows.remove(&(number, kind.to_string()));
        let (words, count) = row.map_or(("-".to_string(), 0), |((_, _, about), count)| (short(&about), count));
        println!("| {number} | {kind} | {words} | {count} |");
    }
    Ok(())
}

/// Groups of words in a table, or how many words they have.
fn short(groups: &[Vec<u32>]) -> String {
    let group = |words: &Vec<u32>| match words.len() {
        0..=30 => format!("`{}`", show(words)),
        many => format!("{many} words"),
    };
    groups.iter().map(group).collect::<Vec<_>>().join("; ")
}

/// Expands what is stored with the library and the plain implementation; gives how many calls there are.
fn check_expansions(folder: &str) -> Result<usize, String> {
    let calls = stored_expansions(folder)?;
    let output = read(format!("{folder}/stdout"))?;
    for by in [expansion::LIBRARY, expansion::PLAIN] {
        let line = |call: &expansion::Call| expansions::line(&expansion::perform(call, by, expansions::FILL));
        let lines: Vec<String> = calls.iter().map(line).collect();
        let mut stored = output.split_inclusive(|&byte| byte == b'\n');
        if let Some(i) = lines.iter().position(|line| stored.next() != Some(line.as_bytes())) {
            return Err(format!("{}: expansion {i} differs\n{}", by.name, calls[i].describe()));
        }
        if stored.next().is_some() {
            return Err("more lines than records of expansions".to_string());
        }
    }
    Ok(calls.len())
}

/// The calls of the stored records, each with its fill.
fn stored_calls(folder: &str) -> Result<Vec<(Call, u32)>, String> {
    let words = words_of(&read(format!("{folder}/stdin"))?).map_err(|fault| fault.to_string())?;
    let (records, rest) = words.as_chunks::<RECORD>();
    let call = |(i, words)| record::call(words).ok_or(format!("record {i} is broken"));
    if rest.is_empty() { records.iter().enumerate().map(call).collect() } else { Err("half a record".to_string()) }
}

/// An input of the thin program and its text.
type StoredText = (Vec<u8>, Vec<u8>);

fn stored_texts(folder: &str) -> Result<Vec<StoredText>, String> {
    texts::records(&read(format!("{folder}/stdin"))?).ok_or("half a text".to_string())
}

/// Performs what is stored with the library and the plain implementation.
fn check(crates: &str) -> Result<(), String> {
    let calls = stored_calls(&format!("{crates}/replay"))?;
    let output = read(format!("{crates}/replay/stdout"))?;
    let texts = stored_texts(&format!("{crates}/texts"))?;
    let restrictions = stored_restrictions(&format!("{crates}/restricts"))?;
    let restricted = read(format!("{crates}/restricts/stdout"))?;
    for by in [LIBRARY, PLAIN] {
        let lines: String = calls.iter().map(|(call, fill)| line(&perform(call, by, *fill))).collect();
        let at = lines.bytes().zip(&output).position(|(made, &stored)| made != stored);
        if at.is_some() || lines.len() != output.len() {
            let at = at.unwrap_or(lines.len().min(output.len()));
            return Err(format!("{}: line {} differs", by.name, lines[..at].matches('\n').count() + 1));
        }
        let text = |input: &[u8]| {
            let run = texts::model_of(input).map(|model| perform(&texts::run_of(model), by, FILL));
            texts::text_of(run.as_ref())
        };
        if let Some(i) = texts.iter().position(|(input, stored)| text(input) != *stored) {
            return Err(format!("{}: text {i} differs", by.name));
        }
        let lines: String = restrictions.iter().map(|call| line(&perform(call, by, FILL_OF_RESTRICTS))).collect();
        if lines.as_bytes() != restricted {
            return Err(format!("{}: a restriction differs", by.name));
        }
    }
    let pgsolver = check_pgsolver(&format!("{crates}/pgsolver_runs"))?;
    let expansions = check_expansions(&format!("{crates}/expansions"))?;
    let counts = [calls.len(), texts.len(), restrictions.len(), pgsolver, expansions];
    println!("{counts:?} records, texts, restrictions, PGSolver texts and expansions, no difference");
    Ok(())
}

/// The calls of the program `restricts`: four lengths, then the game.
fn stored_restrictions(folder: &str) -> Result<Vec<Call>, String> {
    let words = words_of(&read(format!("{folder}/stdin"))?).map_err(|fault| fault.to_string())?;
    let (mut rest, mut calls) = (&words[..], Vec::new());
    while let Some((lengths, words)) = rest.split_first_chunk::<4>() {
        let [length, out, map, work] = lengths.map(|length| length as usize);
        let (game, after) = words.split_at_checked(length).ok_or("half a game")?;
        calls.push(Call::Restrict { game: game.to_vec(), out, map, work });
        rest = after;
    }
    Ok(calls)
}

/// What is stored of a kind of place: the smallest input, and how many in `replay`, `restricts`, `texts` and
/// `expansions`. Inputs that differ from the base elsewhere, too, come after those that don't.
#[derive(Default)]
struct Row {
    smallest: Option<(bool, usize, Vec<u32>)>,
    counts: [usize; 4],
}

/// The table of kinds of place in docs/STORED-RUNS.md.
fn print_table(crates: &str) -> Result<(), String> {
    let calls = stored_calls(&format!("{crates}/replay"))?.into_iter().map(|(call, _)| (0, call));
    let restrictions = stored_restrictions(&format!("{crates}/restricts"))?.into_iter().map(|call| (1, call));
    let texts = stored_texts(&format!("{crates}/texts"))?;
    let runs = texts.iter().filter_map(|(input, _)| texts::model_of(input)).map(|model| (2, texts::run_of(model)));
    let mut rows: BTreeMap<(u32, String), Row> = BTreeMap::new();
    for (program, call) in calls.chain(restrictions).chain(runs) {
        let [2, number, place, _] = perform(&call, PLAIN, FILL).answer else { continue };
        let row = rows.entry((number, kinds::kind(&call, number, place))).or_default();
        row.counts[program] += 1;
        let words = kinds::about(&call, number);
        let size = (!kinds::rest_is_base(&call, number), words.len(), words);
        if program < 2 && row.smallest.as_ref().is_none_or(|old| size < *old) {
            row.smallest = Some(size);
        }
    }
    for call in stored_expansions(&format!("{crates}/expansions"))? {
        let refused = refused_expansion(&call, &expansion::perform(&call, expansion::PLAIN, expansions::FILL));
        if let Some(kind) = refused.filter(|(number, _)| (11..=45).contains(number)) {
            rows.entry(kind).or_default().counts[3] += 1;
        }
    }
    for (number, kind) in all_kinds() {
        let Row { smallest, counts: [replay, restricts, texts, expansions] } =
            rows.remove(&(number, kind.to_string())).unwrap_or_default();
        let words = smallest.map_or("-".to_string(), |(_, _, words)| format!("`{}`", show(&words)));
        println!("| {number} | {kind} | {words} | {replay} | {restricts} | {texts} | {expansions} |");
    }
    rows.keys().for_each(|row| println!("of no listed kind: {row:?}"));
    for way in texts::REFUSED {
        let inputs = texts.iter().map(|(input, _)| input).filter(|input| texts::refused_bytes(input) == Some(way));
        let (count, bytes) = (inputs.clone().count(), inputs.map(Vec::len).min().unwrap_or(0));
        println!("| 2 | the thin program: {way} | {bytes} bytes | 0 | 0 | {count} | 0 |");
    }
    print_pgsolver_table(&format!("{crates}/pgsolver_runs"))?;
    print_expansions_table(&format!("{crates}/expansions"))
}

fn make(program: &str, crates: &str, count: Option<&String>) -> Result<(), String> {
    let oracle = Oracle::at(program).map_err(|what| format!("{what}: the stored answers come from it"))?;
    let count = count.map_or(Ok(200), |text| text.parse().map_err(|_| format!("{text} is no number")))?;
    store_calls(&format!("{crates}/replay"), &oracle, count)?;
    store_restrictions(&format!("{crates}/restricts"), &oracle)?;
    store_texts(&format!("{crates}/texts"), &oracle)?;
    store_pgsolver(&format!("{crates}/pgsolver_runs"))?;
    store_expansions(&format!("{crates}/expansions"))
}

fn main() -> ExitCode {
    let arguments: Vec<String> = std::env::args().skip(1).collect();
    if options::wants_help(&arguments) {
        println!("{USAGE}");
        return ExitCode::SUCCESS;
    }
    let done = match &arguments[..] {
        [option, crates] if option == "--check" => check(crates),
        [option, crates] if option == "--table" => print_table(crates),
        [program, crates, rest @ ..] => make(program, crates, rest.first()),
        _ => Err(USAGE.to_string()),
    };
    match done {
        Ok(()) => ExitCode::SUCCESS,
        Err(what) => {
            eprintln!("{what}");
            ExitCode::FAILURE
        }
    }
}
