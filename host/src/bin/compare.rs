//! Compares the library with the plain implementation and the oracle: every word of game, map and work, every byte of
//! text, and what is around all slices; the verdicts of small games with what their formulas mean; and what expanded
//! formulas mean with what they meant over regular formulas.
use hingrezh::check::call::{Call, LIBRARY, Outcome, PLAIN, perform, show, unlawful};
use hingrezh::check::cases::{self, Case};
use hingrezh::check::columns::{self, Columns, carried, misplaced};
use hingrezh::check::damage::damage;
use hingrezh::check::expansion::call::{self as expansion, Input};
use hingrezh::check::expansion::{
    cases as expansion_cases, damage as expansion_damage, generate as expansions, original, paths,
};
use hingrezh::check::finished::{Expected, expected};
use hingrezh::check::generate::{
    Random, Sizes, all_formulas, all_tables, random_game, random_model, random_system, table,
};
use hingrezh::check::meaning;
use hingrezh::check::options::{self, Options};
use hingrezh::check::oracle::{Oracle, Reply, Request, as_original, original_words};
use hingrezh::check::pgsolver::{call as pgsolver, cases as text_cases, damage as text_damage};
use hingrezh::check::pgsolver::{generate as drafts, large};
use hingrezh::check::places;
use hingrezh::check::shapes::{SHAPES, WORST};
use hingrezh::check::verdicts::{self, Tally, Verdict};
use hingrezh::{Answer, Model, game_words};
use std::collections::BTreeMap;
use std::process::ExitCode;
use std::time::Instant;

const USAGE: &str = "\
usage: compare [--oracle PROGRAM] [--seed N] [--times N] [--only TEXT]

Runs the library and the plain Rust implementation on the same inputs and compares every word and byte that they leave,
those around the lent slices included. What the Rust original knows nothing of, state and item of each vertex and the
transitions behind each edge, is found from system and formula, too, and no two vertices of a run's game have the same
state and item. Formulas over regular formulas are read by the paths of small models, too, and must hold where the
expanded ones do; with an oracle, the original expands them, too, where it follows the document (docs/DIFFERENCES.md),
and its games must be those of the expanded formulas. Then solves small games of the library's (Even wins if the largest
priority seen for ever is even) and compares who wins with the formula itself, read directly on the model. The ranking
of fixpoints is the Rust original's: it gives false alarms (the formula holds, but Even does not win), which are
counted. A false pass (Even wins, but the formula does not hold) is a difference.

--oracle PROGRAM  asks PROGRAM, which runs the Rust original, too; without it there is no third opinion
--seed N          other random inputs (1)
--times N         N times as many random inputs (1)
--only TEXT       only the stages whose names contain TEXT

exit status: 0 no difference; 1 a difference or a false pass, the smallest input that shows one is printed; 2 it could
not run";

/// The words that lent slices hold before a call, in turn: plausible numbers, so that a slice which isn't cleared
/// shows.
const FILLS: [u32; 6] = [0xA5A5_A5A5, 1, u32::MAX, 2, 0, 7];

struct Comparison {
    oracle: Option<Oracle>,
    random: Random,
    inputs: u64,
    calls: u64,
    /// How often each answer of each call came: 0 for done, -1 for cut, else the refusal's number.
    answers: BTreeMap<(&'static str, i64), u64>,
    verdicts: Tally,
    /// How many edges of finished games have no transition behind them, one, and several.
    counts: [u64; 3],
    /// In how many states formulas over regular formulas were read by paths, and in how many they hold.
    by_paths: [u64; 2],
    /// How many games of formulas over regular formulas were the original's.
    as_original: u64,
    differences: u64,
    smallest: Option<(usize, String)>,
}

impl Comparison {
    fn new(oracle: Option<Oracle>, seed: u64) -> Comparison {
        Comparison {
            oracle,
            random: Random::new(seed),
            inputs: 0,
            calls: 0,
            answers: BTreeMap::new(),
            verdicts: Tally::default(),
            counts: [0; 3],
            by_paths: [0; 2],
            as_original: 0,
            differences: 0,
            smallest: None,
        }
    }

    fn differs(&mut self, call: &Call, what: &str) {
        self.note(call.size(), || format!("{what}\n{}", call.describe()));
    }

    fn text_differs(&mut self, call: &pgsolver::Call, what: &str) {
        self.note(call.size(), || format!("{what}\n{}", call.describe()));
    }

    fn note(&mut self, new: usize, text: impl FnOnce() -> String) {
        self.differences += 1;
        if self.smallest.as_ref().is_none_or(|(size, _)| new < *size) {
            self.smallest = Some((new, text()));
        }
    }

    fn count(&mut self, call: &'static str, answer: [u32; 4]) {
        let number = match Answer::of_words(answer) {
            Answer::Done { .. } => 0,
            Answer::Cut { .. } => -1,
            Answer::Refused(refusal) => refusal.number as i64,
        };
        *self.answers.entry((call, number)).or_default() += 1;
    }

    /// Calls both implementations and compares all that they leave; gives the plain one's outcome.
    fn both(&mut self, call: &Call) -> Outcome {
        let fill = FILLS[self.calls as usize % FILLS.len()];
        self.calls += 1;
        let (library, plain) = (perform(call, LIBRARY, fill), perform(call, PLAIN, fill));
        for (outcome, by) in [(&library, LIBRARY), (&plain, PLAIN)] {
            if let Some(what) = unlawful(outcome, fill) {
                self.differs(call, &format!("{}: {what}; answer {:?}", by.name, outcome.answer));
            }
        }
        if library != plain {
            self.differs(call, &contrast("library", &library, "plain", &plain));
        }
        self.count(if matches!(call, Call::Build { .. }) { "build" } else { "restrict" }, plain.answer);
        plain
    }

    /// Writes or reads a text by library and both plain versions and compares all that they leave; gives the outcome of
    /// the one that allocates.
    fn text(&mut self, call: &pgsolver::Call) -> pgsolver::Outcome {
        let fill = FILLS[self.calls as usize % FILLS.len()] as u8;
        self.calls += 1;
        let by = [pgsolver::LIBRARY, pgsolver::LENT, pgsolver::PLAIN];
        let [library, lent, plain] = by.map(|by| pgsolver::perform(call, by, fill));
        for (outcome, by) in [&library, &lent, &plain].into_iter().zip(by) {
            if let Some(what) = pgsolver::unlawful(outcome, fill) {
                self.text_differs(call, &format!("{}: {what}; answer {:?}", by.name, outcome.answer));
            }
            if *outcome != plain {
                self.text_differs(call, &format!("{}: {}\nplain: {}", by.name, outcome.show(), plain.show()));
            }
        }
        self.count(call.name(), plain.answer);
        plain
    }

    /// The same of several calls.
    fn texts(&mut self, calls: impl IntoIterator<Item = pgsolver::Call>) {
        for call in calls {
            self.inputs += 1;
            self.text(&call);
        }
    }

    /// The same, and the answer is known, and the words of the game that is read.
    fn known_text(&mut self, call: &pgsolver::Call, answer: [u32; 4], game: &[u32]) {
        let got = self.text(call);
        if got.answer != answer || !got.game.starts_with(game) {
            let what = format!("expected answer {answer:?}; game {}\nplain {}", show(game), got.show());
            self.text_differs(call, &what);
        }
    }

    fn text_cases(&mut self, cases: Vec<text_cases::Case>) {
        for text_cases::Case { name, call, answer, text, game } in cases {
            self.inputs += 1;
            let before = self.differences;
            let got = self.text(&call);
            let same = got.answer == answer
                && text.is_none_or(|text| got.text.starts_with(&text))
                && game.is_none_or(|game| got.game.starts_with(&game));
            if !same {
                self.text_differs(&call, &format!("expected answer {answer:?}\nplain {}", got.show()));
            }
            if self.differences > before {
                println!("case {name} differs");
            }
        }
    }

    /// Writes a game into slices of several lengths, with other states, items and counts to the same effect; then reads
    /// its text back into a room that just holds it.
    fn round_trip(&mut self, game: &[u32]) {
        let other = drafts::rewritten(&mut self.random, game);
        for call in drafts::lengths(&mut self.random, game) {
            let written = self.text(&call);
            self.inputs += 1;
            if let pgsolver::Call::Write { text, .. } = call {
                let call = pgsolver::Call::Write { game: other.clone(), text };
                let again = self.text(&call);
                // A refusal leaves what was there, which is not the same in two calls.
                let same = again.answer == written.answer && (again.answer[0] == 2 || again.text == written.text);
                if !same {
                    self.text_differs(&call, &format!("with other states, items and counts: {}", written.show()));
                }
            }
            if let [0, bytes, ..] = written.answer {
                let new = large::without_repeats(game);
                let call = pgsolver::Call::read(&written.text[..bytes as usize], new[0], new[1]);
                self.known_text(&call, [0, new[0], new[0], new[1]], &new);
            }
        }
    }

    /// Expands by both implementations and compares all that they leave; gives the plain one's outcome. A run must take
    /// the formula that is written: in no step it is cut.
    fn expand(&mut self, call: &expansion::Call) -> expansion::Outcome {
        let fill = FILLS[self.calls as usize % FILLS.len()];
        self.inputs += 1;
        self.calls += 1;
        let by = [expansion::LIBRARY, expansion::PLAIN];
        let [library, plain] = by.map(|by| expansion::perform(call, by, fill));
        for (outcome, by) in [(&library, expansion::LIBRARY), (&plain, expansion::PLAIN)] {
            if let Some(what) = expansion::unlawful(outcome, fill) {
                self.expansion_differs(call, &format!("{}: {what}; answer {:?}", by.name, outcome.answer));
            }
        }
        if library != plain {
            self.expansion_differs(call, &format!("library: {}\nplain:   {}", library.show(), plain.show()));
        }
        if let Some(formula) = library.formula() {
            let run = self.both(&Call::build(call.input.model(SYSTEMS[0], formula), 1, 1, 0));
            if run.answer != [1, 0, 1, 0] {
                self.expansion_differs(call, &format!("a run answers {:?} to {}", run.answer, library.show()));
            }
        }
        self.count("expand", plain.answer);
        plain
    }

    fn expansion_differs(&mut self, call: &expansion::Call, what: &str) {
        self.note(call.size(), || format!("{what}\n{}", call.describe()));
    }

    /// The same, and what is written means on each system what the formula means by paths; gives the models of runs.
    fn expand_on(&mut self, input: &Input, systems: &[Vec<u32>]) -> Vec<Model> {
        let (call, before) = (expansion::Call::expand(input.clone()), self.differences);
        let outcome = self.expand(&call);
        let formula = outcome.formula().filter(|_| self.differences == before);
        let Some(formula) = formula else { return Vec::new() };
        let models: Vec<Model> = systems.iter().map(|system| input.model(system, formula)).collect();
        for model in &models {
            let by_paths = paths::satisfying(input, &model.system);
            if meaning::satisfying(model) != by_paths {
                self.expansion_differs(&call, &format!("system {}: by paths {by_paths:?}", show(&model.system)));
            }
            self.by_paths[0] += by_paths.len() as u64;
            self.by_paths[1] += by_paths.iter().filter(|&&holds| holds).count() as u64;
        }
        models
    }

    /// Inputs, each on a system, whose game by the Rust original must be that of the expanded formula.
    fn as_the_original(&mut self, inputs: &[(Input, Vec<u32>)]) -> Result<(), String> {
        let requests: Vec<Request> =
            inputs.iter().map(|(input, system)| Request::TranslateRegular(input, system)).collect();
        for ((input, system), reply) in inputs.iter().zip(self.replies(&requests)?) {
            let call = expansion::Call::expand(input.clone());
            let outcome = self.expand(&call);
            let (Some(formula), Some(reply)) = (outcome.formula(), reply) else { continue };
            let game = finish(&input.model(system, formula));
            if reply != Reply::Words(as_original(&game)) {
                let what = format!("system {}: the oracle says {reply:?}\nplain {}", show(system), show(&game));
                self.expansion_differs(&call, &what);
            }
            self.as_original += 1;
        }
        Ok(())
    }

    fn expansion_cases(&mut self, cases: Vec<expansion_cases::Case>) {
        for expansion_cases::Case { name, call, answer, formula } in cases {
            let before = self.differences;
            let got = self.expand(&call);
            if got.answer != answer || formula.as_ref().is_some_and(|formula| got.formula() != Some(formula)) {
                let what = format!("expected answer {answer:?}, formula {formula:?}\nplain {}", got.show());
                self.expansion_differs(&call, &what);
            }
            if self.differences > before {
                println!("case {name} differs");
            }
        }
    }

    /// The same, and the answer and the game's words are known.
    fn known(&mut self, call: &Call, expected: &Expected, map: Option<&[u32]>) {
        let got = self.both(call);
        let game = got.game.get(..expected.game.len());
        let fine = got.answer == expected.answer
            && (expected.game.is_empty() || game == Some(&expected.game[..]))
            && map.is_none_or(|map| got.map == map);
        if !fine {
            let Expected { answer, game } = expected;
            let map = map.map_or(String::new(), |map| format!("; map {}", show(map)));
            let what = format!(
                "expected answer {answer:?}; game {}{map}\nplain    answer {:?}; game {}; map {}",
                show(game),
                got.answer,
                show(&got.game),
                show(&got.map)
            );
            self.differs(call, &what);
        }
    }

    /// The oracle's replies, `None` for all if there is no oracle.
    fn replies(&self, requests: &[Request]) -> Result<Vec<Option<Reply>>, String> {
        let Some(oracle) = &self.oracle else { return Ok(requests.iter().map(|_| None).collect()) };
        Ok(oracle.ask(requests)?.into_iter().map(Some).collect())
    }

    /// Models that are accepted: the finished game comes from the oracle, its states, items and counts from the model;
    /// other rooms and limits follow from it.
    fn accepted(&mut self, models: Vec<Model>, tries: usize) -> Result<(), String> {
        for models in models.chunks(5_000) {
            let requests: Vec<Request> = models.iter().map(Request::Translate).collect();
            let mut games = Vec::new();
            for (model, reply) in models.iter().zip(self.replies(&requests)?) {
                self.inputs += 1;
                let game = match reply {
                    Some(Reply::Words(game)) => game,
                    Some(reply) => {
                        self.differs(&Call::build(model.clone(), 1, 1, 1), &format!("the oracle says {reply:?}"));
                        continue;
                    }
                    None => as_original(&finish(model)),
                };
                let game = match columns::completed(model, &game) {
                    Ok(game) => game,
                    Err(what) => {
                        self.differs(&Call::build(model.clone(), 1, 1, 1), &what);
                        continue;
                    }
                };
                if let Some(what) = misplaced(model, &game) {
                    self.differs(&Call::build(model.clone(), 1, 1, 1), &what);
                }
                let counts = Columns::shown(&game).counts;
                counts.iter().for_each(|&count| self.counts[count.min(2) as usize] += 1);
                self.rooms(model, &game, tries);
                if self.random.chance(20) {
                    games.push(game);
                }
            }
            self.games(games)?;
        }
        Ok(())
    }

    /// Runs of a model whose finished game is known: exact room, room to spare, too little, and cut.
    fn rooms(&mut self, model: &Model, game: &[u32], tries: usize) {
        let (n, m) = (game[0], game[1]);
        let some = self.random.within(0, n as usize) as u32;
        let spare = self.random.within(1, 9) as u32;
        let rooms = [
            (n, m, n),
            (n, m, some),
            (n + spare, m + 2 * spare, u32::MAX),
            (n, m, n - 1),
            (n.max(2) - 1, m, some),
            (n, m.max(2) - 1, n),
            (n.max(2) - 1, m, u32::MAX),
            (1 + some, 1 + 2 * some, some + spare),
        ];
        for &(v, e, k) in rooms.iter().take(tries).filter(|room| room.0 <= 1 << 20 && room.1 <= 1 << 22) {
            let call = Call::build(model.clone(), v, e, k);
            match expected(game, v, e, k) {
                Some(expected) => self.known(&call, &expected, None),
                None => self.differs(&call, "the finished game's numbers are those of no walk"),
            }
        }
    }

    /// Games that the restriction accepts.
    fn games(&mut self, games: Vec<Vec<u32>>) -> Result<(), String> {
        for games in games.chunks(5_000) {
            let requests: Vec<Request> = games.iter().map(|game| Request::Restrict(game)).collect();
            for (game, reply) in games.iter().zip(self.replies(&requests)?) {
                self.inputs += 1;
                let call = Call::restrict(game.clone());
                match reply {
                    Some(Reply::Words(words)) => {
                        let (n, m) = (words[0], words[1]);
                        let (new, map) = words.split_at(original_words(n as usize, m as usize));
                        let new = carried(game, map).into_game(new);
                        self.known(&call, &Expected { answer: [0, n, n, m], game: new }, Some(map));
                    }
                    Some(reply) => self.differs(&call, &format!("the oracle says {reply:?}")),
                    None => {
                        let got = self.both(&call);
                        if let Some(what) = wrong_columns(&call, &got) {
                            self.differs(&call, &what);
                        }
                    }
                }
            }
        }
        Ok(())
    }

    /// Calls that may be refused: the oracle knows no numbers, but takes exactly what is accepted, sizes aside.
    fn any(&mut self, calls: Vec<Call>) -> Result<(), String> {
        for calls in calls.chunks(5_000) {
            let requests: Vec<Request> = calls.iter().map(request).collect();
            for (call, reply) in calls.iter().zip(self.replies(&requests)?) {
                self.inputs += 1;
                let got = self.both(call);
                let other = reply.and_then(|reply| disagreement(call, &got, &reply));
                if let Some(what) = other.or_else(|| wrong_columns(call, &got)) {
                    self.differs(call, &what);
                }
            }
        }
        Ok(())
    }

    fn cases(&mut self, cases: Vec<Case>) -> Result<(), String> {
        for Case { name, call, answer, game, map } in cases {
            self.inputs += 1;
            let before = self.differences;
            self.known(&call, &Expected { answer, game: game.unwrap_or_default() }, map.as_deref());
            if self.differences > before {
                println!("case {name} differs");
            }
        }
        Ok(())
    }

    /// Small games, solved, against what their formulas mean.
    fn verdicts(&mut self, models: impl Iterator<Item = Model>) -> Tally {
        let mut tally = Tally::default();
        for model in models {
            self.inputs += 1;
            self.calls += 1;
            let judged = verdicts::judge(&model).inspect(|&verdict| tally.count(verdict));
            let wrong = match judged {
                Err(what) => what,
                Ok(Verdict::FalsePass) => "a false pass: Even wins, but the formula does not hold".to_string(),
                Ok(_) => continue,
            };
            self.differs(&verdicts::run(&model), &wrong);
        }
        println!("  {tally}");
        self.verdicts.add(tally);
        tally
    }
}

/// The finished game by the plain implementation, with room that grows until it is enough.
fn finish(model: &Model) -> Vec<u32> {
    let mut room = 256;
    loop {
        let call = Call::build(model.clone(), room.min(1 << 20), (4 * room).min(1 << 22), u32::MAX);
        let Outcome { answer, mut game, .. } = perform(&call, PLAIN, 0);
        match Answer::of_words(answer).game_words() {
            Some(words) => {
                game.truncate(words);
                return game;
            }
            None => assert!(answer[1] == 60 && room < 1 << 20, "an accepted model that fits the largest room"),
        }
        room *= 8;
    }
}

/// An empty game, which is not valid, stands for what the oracle can't be asked: it makes all labels it is told of.
fn request(call: &Call) -> Request<'_> {
    match call {
        Call::Build { model, .. } if model.labels.first().is_none_or(|&l| l <= 65_536) => Request::Translate(model),
        Call::Build { .. } => Request::Restrict(&[]),
        Call::Restrict { game, .. } => Request::Restrict(game),
    }
}

fn disagreement(call: &Call, got: &Outcome, reply: &Reply) -> Option<String> {
    let (number, [_, _, n, m]) = (got.answer[1], got.answer);
    match (got.answer[0], reply) {
        // Of these refusals the oracle knows nothing.
        (2, _) if [1, 2, 12, 22, 32, 42, 60].contains(&number) => None,
        (2, Reply::NotValid) => None,
        (1, Reply::Words(_)) => None,
        (0, Reply::Words(words)) => {
            let game = as_original(&got.game[..game_words(n as usize, m as usize)]);
            let map = if matches!(call, Call::Build { .. }) { &[] } else { &got.map[..] };
            let same = *words == [&game[..], map].concat();
            (!same).then(|| format!("the oracle's words {}\nplain's            {}", show(words), show(&got.game)))
        }
        _ => Some(format!("answer {:?}, but the oracle says {reply:?}", got.answer)),
    }
}

/// States, items and counts of a game that was built, against those of system and formula, and each other; of one that
/// was restricted, against those that it had.
fn wrong_columns(call: &Call, got: &Outcome) -> Option<String> {
    let [0 | 1, _, n, m] = got.answer else { return None };
    let game = &got.game[..game_words(n as usize, m as usize)];
    let wanted = match call {
        Call::Build { model, .. } => match misplaced(model, game) {
            Some(what) => Err(what),
            None => columns::columns(model, &as_original(game)),
        },
        Call::Restrict { game, .. } => Ok(carried(game, &got.map)),
    };
    match wanted {
        Err(what) => Some(what),
        Ok(wanted) if wanted == Columns::shown(game) => None,
        Ok(Columns { states, items, counts }) => {
            let [states, items, counts] = [states, items, counts].map(|column| show(&column));
            Some(format!("expected states {states}, items {items}, counts {counts}\nplain's game {}", show(game)))
        }
    }
}

fn contrast(name: &str, one: &Outcome, other_name: &str, other: &Outcome) -> String {
    let text = |outcome: &Outcome| {
        let work = outcome.work.iter().filter(|&&word| word != 0).count();
        let Outcome { answer, game, map, .. } = outcome;
        format!("answer {answer:?}; game {}; map {}; {work} words of work not 0", show(game), show(map))
    };
    format!("{name}: {}\n{other_name}: {}", text(one), text(other))
}

/// Small systems: without a transition, with a loop, with two and with three states. Label 0 is action 7, label 1 is
/// tau.
const SYSTEMS: [&[u32]; 4] = [
    &[1, 0, 0, 0],
    &[1, 1, 0, 1, 0, 0],
    &[2, 3, 0, 2, 1, 0, 1, 0, 1, 1, 0],
    &[3, 5, 1, 1, 3, 1, 0, 0, 0, 1, 1, 2, 0, 2, 0, 1],
];

/// Every formula of so many nodes on each system; their modalities are on label 0 and on not label 0.
fn exhaustive(nodes: usize, systems: &[&[u32]]) -> impl Iterator<Item = Model> {
    let actions = table(&[(2, 0), (5, 0), (2, 0)]);
    all_formulas(nodes, &[0, 1]).into_iter().flat_map(move |formula| {
        let model = |system: &&[u32]| Model {
            labels: vec![2, 1, 0, 7],
            system: system.to_vec(),
            actions: actions.clone(),
            formula: formula.clone(),
        };
        systems.iter().map(model).collect::<Vec<_>>()
    })
}

/// Every table of up to three nodes, valid or not: as actions (kinds to 6) or as a formula (kinds to 9).
fn all_small_tables(formula: bool) -> Vec<Call> {
    let base = |actions: Vec<u32>, formula: Vec<u32>| Model {
        labels: vec![1, 1, 0, 7],
        system: vec![1, 1, 0, 1, 0, 0],
        actions,
        formula,
    };
    let call = |words: Vec<u32>| {
        let model = if formula { base(vec![2, 5, 2, 0, 0], words) } else { base(words, vec![2, 5, 0, 0, 0]) };
        Call::build(model, 6, 9, 9)
    };
    let (kinds, operands) = if formula { (10, 4) } else { (7, 5) };
    all_tables(3, kinds, operands).map(call).collect()
}

fn random_models(random: &mut Random, count: usize, sizes: Sizes) -> Vec<Model> {
    (0..count).map(|_| random_model(random, sizes)).collect()
}

/// Damaged once, twice or three times.
fn damaged(random: &mut Random, count: usize, make: impl Fn(&mut Random) -> Call) -> Vec<Call> {
    let one = |_| {
        let mut call = make(random);
        for _ in 0..random.pick(&[1, 1, 2, 2, 3]) {
            damage(random, &mut call);
        }
        call
    };
    (0..count).map(one).collect()
}

fn damaged_builds(random: &mut Random, count: usize) -> Vec<Call> {
    damaged(random, count, |random| {
        let model = random_model(random, Sizes { formula: 8, states: 4, permuted: false });
        Call::build(model, random.pick(&[20, 60]), 120, random.pick(&[5, 99, u32::MAX]))
    })
}

fn damaged_restrictions(random: &mut Random, count: usize) -> Vec<Call> {
    damaged(random, count, |random| Call::restrict(random_game(random, 6)))
}

fn random_games(c: &mut Comparison, times: usize) -> Result<(), String> {
    let kinds: [(&str, fn(&mut Random) -> Model, usize); 2] = [
        ("fixpoints that alternate", verdicts::alternating_model, 40_000),
        ("any formulas", verdicts::any_model, 20_000),
    ];
    for (what, make, count) in kinds {
        println!("  {what}");
        let mut random = Random::new(c.random.word());
        c.verdicts((0..count * times).map(|_| make(&mut random)));
    }
    Ok(())
}

/// Whether false alarms are still seen: if this one is not, the ranking, the solver or the direct reading has changed.
fn known_false_alarm(c: &mut Comparison, _: usize) -> Result<(), String> {
    let model = verdicts::known_false_alarm();
    if c.verdicts(std::iter::once(model.clone())).false_alarms != 1 {
        c.differs(&verdicts::run(&model), "this formula was a false alarm under the Rust's ranking, and is none now");
    }
    Ok(())
}

fn large_shapes(c: &mut Comparison, _: usize) -> Result<(), String> {
    for shape in &SHAPES {
        println!("  {}: {}", shape.name, shape.what);
        let clock = Instant::now();
        // Most of the time is the oracle's; three shapes are slow there and come at a quarter of their size.
        let slow = ["deep", "nested", "unions"].contains(&shape.name);
        c.accepted(vec![(shape.make)(if slow { 1 } else { 4 })], 2)?;
        println!("  {:.1} s", clock.elapsed().as_secs_f64());
    }
    // The oracle would take hours on most of the worst cases.
    let oracle = c.oracle.take();
    for shape in &WORST {
        println!("  {}: {} (without the oracle)", shape.name, shape.what);
        c.accepted(vec![(shape.make)(4)], 2)?;
    }
    c.oracle = oracle;
    Ok(())
}

/// Small texts with every small change, and all small parts of a text.
fn small_texts(c: &mut Comparison, _: usize) -> Result<(), String> {
    let read = |text: Vec<u8>| pgsolver::Call::read(text, 4, 5);
    for text in text_damage::SMALL {
        c.texts(text_damage::truncated(text).map(read));
        c.texts(text_damage::changed(text).map(read));
    }
    c.texts(text_damage::SMALL[..2].iter().flat_map(|text| text_damage::changed_twice(text)).map(read));
    c.texts(text_damage::every_part().map(read));
    Ok(())
}

fn written_games(c: &mut Comparison, times: usize) -> Result<(), String> {
    for (count, most) in [(20_000, 5), (2_000, 60), (30, 5_000)] {
        for _ in 0..count * times {
            let game = drafts::game(&mut c.random, most);
            c.round_trip(&game);
        }
    }
    for mut call in damaged_restrictions(&mut c.random, 20_000 * times) {
        if let Call::Restrict { game, .. } = &mut call {
            let text = c.random.pick(&[0, 30, 200]);
            c.texts([pgsolver::Call::Write { game: std::mem::take(game), text }]);
        }
    }
    Ok(())
}

/// Texts of the form: names, any order, repeats, wrong vertices, large numbers.
fn random_texts(c: &mut Comparison, times: usize) -> Result<(), String> {
    for (count, most) in [(40_000, 5), (4_000, 40), (40, 2_000)] {
        for _ in 0..count * times {
            let game = drafts::game(&mut c.random, most);
            let mut draft = drafts::draft(&mut c.random, &game);
            for _ in 0..c.random.pick(&[0, 0, 1, 1, 2]) {
                drafts::alter(&mut c.random, &mut draft);
            }
            let calls = drafts::rooms(&mut c.random, &draft.spell());
            c.texts(calls);
        }
    }
    Ok(())
}

/// Texts that were of the form: a part spelled wrongly, or bytes changed, once or several times.
fn damaged_texts(c: &mut Comparison, times: usize) -> Result<(), String> {
    for _ in 0..60_000 * times {
        let game = drafts::game(&mut c.random, 4);
        let mut draft = drafts::draft(&mut c.random, &game);
        if c.random.chance(40) {
            text_damage::damage_form(&mut c.random, &mut draft);
        }
        let mut text = draft.spell();
        for _ in 0..c.random.pick(&[0, 1, 1, 2]) {
            text_damage::damage(&mut c.random, &mut text);
        }
        let calls = drafts::rooms(&mut c.random, &text);
        c.texts(calls);
    }
    Ok(())
}

/// Round trips of the largest games, lines in order and shuffled, and as many vertices as there is room for, or more.
fn large_texts(c: &mut Comparison, _: usize) -> Result<(), String> {
    for (n, degree) in [(1_000_000, 4), (1 << 20, 4), (1_000, 4_000)] {
        let game = large::game(n, degree);
        c.round_trip(&game);
        let new = large::without_repeats(&game);
        for (shuffled, name) in [(true, 0), (true, 9), (false, 60)] {
            c.inputs += 1;
            let text = large::rearranged(&large::text(&game), shuffled, name);
            c.known_text(&pgsolver::Call::read(text, new[0], new[1]), [0, new[0], new[0], new[1]], &new);
        }
    }
    for (call, answer) in large::at_the_largest_room() {
        c.inputs += 1;
        c.known_text(&call, answer, &[]);
    }
    // What the restriction takes for a game, or doesn't, by its size.
    for case in cases::at_limits() {
        if let Call::Restrict { game, .. } = case.call {
            c.texts([pgsolver::Call::Write { game, text: 0 }]);
        }
    }
    Ok(())
}

/// Label 0 and not label 0, begun by nodes 0 and 1.
fn two_actions(regulars: Vec<u32>, formula: Vec<u32>) -> Input {
    Input { labels: vec![2, 1, 0, 7], actions: table(&[(2, 0), (5, 0), (2, 0)]), regulars, formula }
}

fn small_systems() -> Vec<Vec<u32>> {
    SYSTEMS.map(|system| system.to_vec()).to_vec()
}

/// Every table of up to three nodes, valid or not: as regular formulas (kinds to 5) that a modality names, or as a
/// formula (kinds to 9) whose modalities may name nodes 0 and 2.
fn all_small_expansions(c: &mut Comparison, _: usize) -> Result<(), String> {
    for regulars in all_tables(3, 6, 5) {
        c.expand(&expansion::Call::expand(two_actions(regulars, vec![2, 5, 0, 0, 0])));
    }
    for formula in all_tables(3, 10, 4) {
        c.expand(&expansion::Call::expand(two_actions(table(&[(3, 0), (0, 1), (0, 0)]), formula)));
    }
    Ok(())
}

/// Every regular formula of up to five nodes under every formula of up to three, and of six nodes alone; then formulas
/// of up to five nodes over several regular formulas. All are read by paths on each small system.
fn small_regular_formulas(c: &mut Comparison, _: usize) -> Result<(), String> {
    let formulas: Vec<Vec<u32>> = (1..=3).flat_map(|size| all_formulas(size, &[0])).collect();
    let modal: Vec<&Vec<u32>> = formulas.iter().filter(|formula| named(formula)).collect();
    for nodes in 1..=6 {
        let chosen = if nodes < 6 { modal.len() } else { 4 };
        for regular in expansions::all_regulars(nodes, &[0, 1]) {
            for &formula in &modal[..chosen] {
                c.expand_on(&two_actions(table(&regular), formula.clone()), &small_systems());
            }
        }
    }
    // not a*; (a . not a)+; a + not a*
    let row = table(&[(3, 0), (0, 1), (4, 0), (1, 5), (0, 0), (0, 1), (2, 8), (0, 0), (3, 0), (0, 1)]);
    for formula in (4..=5).flat_map(|size| all_formulas(size, &[0, 2, 6])).filter(|formula| named(formula)) {
        c.expand_on(&two_actions(row.clone(), formula), &small_systems()[2..3]);
    }
    Ok(())
}

/// Whether a formula has a modality.
fn named(formula: &[u32]) -> bool {
    formula[1..].iter().take(formula[0] as usize).any(|kind| matches!(kind, 4 | 5))
}

fn random_expansions(c: &mut Comparison, times: usize) -> Result<(), String> {
    for (count, regular, formula) in [(40_000, 8, 12), (10_000, 30, 30), (4_000, 8, 200), (500, 1_000, 1_000)] {
        for _ in 0..count * times {
            let input = expansions::random_input(&mut c.random, expansions::Sizes { regular, formula });
            c.expand(&expansion::Call::expand(input));
        }
    }
    Ok(())
}

/// Random inputs that are expanded to 1,024 nodes or a few less or more.
fn expansions_at_the_limit(c: &mut Comparison, times: usize) -> Result<(), String> {
    for _ in 0..2_000 * times {
        let input = expansions::random_input(&mut c.random, expansions::Sizes { regular: 12, formula: 200 });
        let call = expansion::Call::expand(input);
        let Some(formula) = c.expand(&call).formula().map(|formula| formula[0]) else { continue };
        let nodes = c.random.pick(&[expansions::MOST - 1, expansions::MOST, expansions::MOST + 1]);
        let more = nodes.saturating_sub(formula);
        if call.input.formula[0] + more > expansions::MOST {
            continue;
        }
        let input = expansions::under_fixpoints(&mut c.random, &call.input, more);
        let answer = if nodes > expansions::MOST { [2, 62, 0, 0] } else { [0, 1 + 2 * nodes, 0, 0] };
        c.expansion_cases(vec![expansion_cases::Case {
            name: "at the limit",
            call: expansion::Call::expand(input),
            answer,
            formula: None,
        }]);
    }
    Ok(())
}

fn damaged_expansions(c: &mut Comparison, times: usize) -> Result<(), String> {
    for _ in 0..60_000 * times {
        let input = expansions::random_input(&mut c.random, expansions::Sizes { regular: 6, formula: 8 });
        let mut call = expansion::Call::expand(input);
        for _ in 0..c.random.pick(&[1, 1, 2, 2, 3]) {
            expansion_damage::damage(&mut c.random, &mut call);
        }
        c.expand(&call);
    }
    Ok(())
}

/// Random inputs on random systems, read by paths. Of some the whole games are compared, by the original's expansion,
/// too, and small games are solved.
fn expansions_by_paths(c: &mut Comparison, times: usize) -> Result<(), String> {
    let (mut run, mut solved, mut alike) = (Vec::new(), Vec::new(), Vec::new());
    for _ in 0..40_000 * times {
        let input = expansions::random_input(&mut c.random, expansions::Sizes { regular: 7, formula: 9 });
        let input = original::ordered(input);
        let system = random_system(&mut c.random, input.labels[0], 6);
        let Some(model) = c.expand_on(&input, std::slice::from_ref(&system)).pop() else { continue };
        if named(&input.formula) && original::expands_alike(&input) {
            alike.push((input, system));
        }
        match model.formula[0] {
            0..=30 => solved.push(model),
            _ => run.push(model),
        }
    }
    c.accepted(run, 2)?;
    c.as_the_original(&alike)?;
    c.verdicts(solved.into_iter());
    Ok(())
}

type Stage = (&'static str, fn(&mut Comparison, usize) -> Result<(), String>);

/// The number says how many times the usual count of random inputs is wanted.
const STAGES: [Stage; 29] = [
    ("worked cases and readings", |c, _| c.cases(cases::all())),
    ("all formulas up to 5 nodes", |c, _| {
        c.accepted((1..=5).flat_map(|nodes| exhaustive(nodes, &SYSTEMS)).collect(), 4)
    }),
    ("all action tables up to 3 nodes", |c, _| c.any(all_small_tables(false))),
    ("all formula tables up to 3 nodes", |c, _| c.any(all_small_tables(true))),
    ("random models", |c, times| {
        let small = Sizes { formula: 30, states: 8, permuted: false };
        let models = random_models(&mut c.random, 40_000 * times, small);
        c.accepted(models, 8)?;
        let models = random_models(&mut c.random, 10_000 * times, Sizes { permuted: true, ..small });
        c.accepted(models, 4)
    }),
    ("larger random models", |c, times| {
        for (count, formula, states) in [(3_000, 120, 8), (100, 1_000, 8), (300, 40, 400)] {
            let models = random_models(&mut c.random, count * times, Sizes { formula, states, permuted: false });
            c.accepted(models, 3)?;
        }
        Ok(())
    }),
    ("restrictions", |c, times| {
        for (count, most) in [(20_000, 12), (200, 2_000)] {
            let games = (0..count * times).map(|_| random_game(&mut c.random, most)).collect();
            c.games(games)?;
        }
        Ok(())
    }),
    ("damaged models", |c, times| {
        let calls = damaged_builds(&mut c.random, 50_000 * times);
        c.any(calls)
    }),
    ("damaged games", |c, times| {
        let calls = damaged_restrictions(&mut c.random, 20_000 * times);
        c.any(calls)
    }),
    ("refusals at every kind of place", |c, _| c.cases(places::all())),
    ("sizes at their limits", |c, _| c.cases(cases::at_limits())),
    ("texts: cases and readings", |c, _| {
        c.text_cases(text_cases::all());
        Ok(())
    }),
    ("texts: every small change of small ones", small_texts),
    ("texts: games written and read back", written_games),
    ("texts: random ones", random_texts),
    ("texts: damaged ones", damaged_texts),
    ("expansions: cases and readings", |c, _| {
        c.expansion_cases(expansion_cases::all());
        Ok(())
    }),
    ("expansions: all tables up to 3 nodes", all_small_expansions),
    ("expansions: small ones by paths", small_regular_formulas),
    ("expansions: random ones", random_expansions),
    ("expansions: damaged ones", damaged_expansions),
    ("expansions: random ones by paths", expansions_by_paths),
    ("expansions: sizes at their limits", |c, times| {
        c.expansion_cases(expansion_cases::at_limits());
        expansions_at_the_limit(c, times)
    }),
    ("verdicts of all formulas up to 5 nodes", |c, _| {
        c.verdicts((1..=5).flat_map(|nodes| exhaustive(nodes, &SYSTEMS)));
        Ok(())
    }),
    ("verdicts of all formulas of 6 nodes on the loop", |c, _| {
        c.verdicts(exhaustive(6, &SYSTEMS[1..2]));
        Ok(())
    }),
    ("verdict of the known false alarm", known_false_alarm),
    ("verdicts of random games", random_games),
    ("texts: large ones", large_texts),
    ("large shapes", large_shapes),
];

fn report(comparison: &Comparison) {
    for name in ["build", "restrict", "write", "read", "expand"] {
        let text = |(&(_, number), count): (&(&str, i64), &u64)| match number {
            0 => format!("done {count}"),
            -1 => format!("cut {count}"),
            _ => format!("{number}: {count}"),
        };
        let of_call: Vec<String> = comparison.answers.iter().filter(|entry| entry.0.0 == name).map(text).collect();
        if !of_call.is_empty() {
            println!("{name}: {}", of_call.join(", "));
        }
    }
    let [none, one, several] = comparison.counts;
    println!("transitions behind edges of finished games: none {none}, one {one}, several {several}");
    let ([states, hold], games) = (comparison.by_paths, comparison.as_original);
    println!("formulas over regular formulas, expanded and read by paths: in {states} states, they hold in {hold}");
    println!("games of formulas over regular formulas, expanded here and by the original: {games}");
    println!("verdicts: {}", comparison.verdicts);
    println!("{} inputs, {} calls, {} differences", comparison.inputs, comparison.calls, comparison.differences);
}

/// Whether there was no difference; an error if the stages could not be run.
fn run(arguments: Vec<String>) -> Result<bool, String> {
    let options = Options::read(arguments, &["--oracle", "--seed", "--times", "--only"])?;
    if let Some(name) = options.names.first() {
        return Err(format!("what is {name}?"));
    }
    let (seed, times) = (options.number("--seed", 1)?, options.count("--times", 1)? as usize);
    let only = options.value("--only").unwrap_or("");
    let stages: Vec<Stage> = STAGES.into_iter().filter(|(name, _)| name.contains(only)).collect();
    if stages.is_empty() {
        return Err(format!("no stage's name contains {only}"));
    }
    let oracle = options.value("--oracle").map(Oracle::at).transpose()?;
    if oracle.is_none() {
        println!("no oracle was named: library and plain only");
    }
    let mut comparison = Comparison::new(oracle, seed);
    for (name, stage) in stages {
        let (clock, before) = (Instant::now(), comparison.inputs);
        println!("{name}");
        stage(&mut comparison, times)?;
        println!("  {} inputs, {:.1} s", comparison.inputs - before, clock.elapsed().as_secs_f64());
        // The stages go from small to large, so the smallest difference is in the first stage that has one.
        if let Some((_, text)) = &comparison.smallest {
            println!("{} differences; the smallest input:\n{text}", comparison.differences);
            return Ok(false);
        }
    }
    report(&comparison);
    Ok(true)
}

fn main() -> ExitCode {
    let arguments: Vec<String> = std::env::args().skip(1).collect();
    if options::wants_help(&arguments) {
        println!("{USAGE}");
        return ExitCode::SUCCESS;
    }
    match run(arguments) {
        Ok(true) => ExitCode::SUCCESS,
        Ok(false) => ExitCode::FAILURE,
        Err(what) => {
            eprintln!("compare: {what}; compare --help says how it is used");
            ExitCode::from(2)
        }
    }
}
