//! Verdicts of games against what the formula means: the game is won by the solver, the formula read by `meaning`.
use super::call::{Call, LIBRARY, perform};
use super::cases::words;
use super::generate::{self, Random, Sizes, random_model};
use super::solver::{Arena, EVEN};
use super::{meaning, textbook};
use crate::{Answer, Model};

/// What a game says of a formula: it passes if Even wins the initial vertex.
#[derive(Clone, Copy, Debug, PartialEq, Eq)]
pub enum Verdict {
    /// It passes and holds.
    Pass,
    /// It doesn't pass and doesn't hold.
    Alarm,
    /// It doesn't pass, but holds.
    FalseAlarm,
    /// It passes, but doesn't hold.
    FalsePass,
}

/// How many of each there were.
#[derive(Clone, Copy, Debug, Default, PartialEq, Eq)]
pub struct Tally {
    pub passes: u64,
    pub alarms: u64,
    pub false_alarms: u64,
    pub false_passes: u64,
}

impl Tally {
    pub fn count(&mut self, verdict: Verdict) {
        *match verdict {
            Verdict::Pass => &mut self.passes,
            Verdict::Alarm => &mut self.alarms,
            Verdict::FalseAlarm => &mut self.false_alarms,
            Verdict::FalsePass => &mut self.false_passes,
        } += 1;
    }

    pub fn add(&mut self, other: Tally) {
        self.passes += other.passes;
        self.alarms += other.alarms;
        self.false_alarms += other.false_alarms;
        self.false_passes += other.false_passes;
    }

    pub fn games(&self) -> u64 {
        self.passes + self.alarms + self.false_alarms + self.false_passes
    }
}

impl std::fmt::Display for Tally {
    fn fmt(&self, f: &mut std::fmt::Formatter) -> std::fmt::Result {
        let Tally { passes, alarms, false_alarms, false_passes } = self;
        write!(f, "{} games: {} agree ({passes} pass, {alarms} do not)", self.games(), passes + alarms)?;
        write!(f, ", {false_alarms} false alarms, {false_passes} false passes")
    }
}

/// Whether Even wins a finished game's initial vertex.
pub fn passes(game: &[u32]) -> Result<bool, String> {
    let winners = Arena::of_words(game)?.winners();
    winners.get(game[2] as usize).map(|&winner| winner == EVEN).ok_or("no such initial vertex".to_string())
}

/// The verdict of a game on whether a formula holds.
pub fn verdict(game: &[u32], holds: bool) -> Result<Verdict, String> {
    Ok(match (passes(game)?, holds) {
        (true, true) => Verdict::Pass,
        (false, false) => Verdict::Alarm,
        (false, true) => Verdict::FalseAlarm,
        (true, false) => Verdict::FalsePass,
    })
}

/// A run of the library with room for the small models' games.
pub fn run(model: &Model) -> Call {
    with_room(model, 4_096)
}

fn with_room(model: &Model, vertices: u32) -> Call {
    Call::build(model.clone(), vertices, 4 * vertices, u32::MAX)
}

/// The library's game. It must be finished: a game that is cut has no verdict.
pub fn finished_game(model: &Model) -> Result<Vec<u32>, String> {
    // Most games are small, and clearing room that is not needed takes longer than all the rest.
    let mut outcome = perform(&with_room(model, 128), LIBRARY, 0);
    if outcome.answer == [2, 60, 0, 0] {
        outcome = perform(&run(model), LIBRARY, 0);
    }
    match Answer::of_words(outcome.answer) {
        answer @ Answer::Done { .. } => Ok(outcome.game[..answer.game_words().unwrap_or(0)].to_vec()),
        answer => Err(format!("no finished game: {answer}")),
    }
}

/// The verdict of the library's game. Solver and direct reading must agree on the textbook's game first, in all states.
pub fn judge(model: &Model) -> Result<Verdict, String> {
    let satisfying = meaning::satisfying(model);
    let winners = Arena::of_words(&textbook::game(model))?.winners();
    let otherwise = |&state: &usize| (winners[state] == EVEN) != satisfying[state];
    if let Some(state) = (0..satisfying.len()).find(otherwise) {
        let holds = satisfying[state];
        return Err(format!(
            "in state {state} the formula is read as {holds}, but the textbook's game is won otherwise"
        ));
    }
    verdict(&finished_game(model)?, satisfying[model.system[2] as usize])
}

/// The smallest known false alarm, on one state with a loop: greatest X, least Y, (X or greatest Z, Y). It holds, since
/// X may be its own reason. But X and Y have depth 2, so X has priority 2 and Y has 3, and every play sees Y for ever.
pub fn known_false_alarm() -> Model {
    Model {
        labels: words("1 1 0 7"),
        system: words("1 1 0 1 0 0"),
        actions: words("1 2 0"),
        formula: words("6 7 6 3 8 7 8 0 0 4 0 0 1"),
    }
}

/// A model as in the other comparisons, of small size.
pub fn any_model(random: &mut Random) -> Model {
    random_model(random, Sizes { formula: 20, states: 6, permuted: false })
}

/// One of those whose formulas alternate, or one that is made for it.
pub fn alternating_model(random: &mut Random) -> Model {
    loop {
        let model = if random.chance(50) { generate::alternating_model(random) } else { any_model(random) };
        if alternates(&model.formula) {
            return model;
        }
    }
}

/// Whether some fixpoint is referred to from inside one of the other kind that stands inside it.
pub fn alternates(formula: &[u32]) -> bool {
    let (kinds, operands) = formula[1..].split_at(formula[0] as usize);
    let ends = tree_ends(kinds, operands);
    let fixpoint = |node: &usize| matches!(kinds[*node], 6 | 7);
    (0..kinds.len()).filter(|&node| kinds[node] == 8).any(|node| {
        let outer = operands[node] as usize;
        let mut between = (outer + 1..node).filter(fixpoint).filter(|&inner| ends[inner] > node);
        between.any(|inner| kinds[inner] != kinds[outer])
    })
}

/// For each node where its tree ends.
fn tree_ends(kinds: &[u32], operands: &[u32]) -> Vec<usize> {
    let mut ends = vec![0; kinds.len()];
    for node in (0..kinds.len()).rev() {
        ends[node] = match kinds[node] {
            0 | 1 | 8 => node + 1,
            2 | 3 => ends[operands[node] as usize],
            _ => ends[node + 1],
        };
    }
    ends
}

#[cfg(test)]
mod tests {
    use super::*;
    use crate::Layout;

    #[test]
    fn the_known_false_alarm_is_one() {
        assert_eq!(judge(&known_false_alarm()), Ok(Verdict::FalseAlarm));
    }

    #[test]
    fn worked_cases() {
        let on_loop = |formula: &str| judge(&Model { formula: words(formula), ..known_false_alarm() });
        // Case 1: greatest X, <a> X; the same with least; case 4 and case 9 of the rules.
        assert_eq!(on_loop("3 7 5 8 0 0 0"), Ok(Verdict::Pass));
        assert_eq!(on_loop("3 6 5 8 0 0 0"), Ok(Verdict::Alarm));
        assert_eq!(on_loop("3 2 0 0 2 0 0"), Ok(Verdict::Pass));
        assert_eq!(on_loop("4 7 6 7 8 0 0 0 2"), Ok(Verdict::Pass));
        // Case 8, whose ranking puts Y above X.
        assert_eq!(on_loop("9 7 6 3 5 8 7 6 5 8 0 0 5 0 0 0 0 0 1"), Ok(Verdict::FalseAlarm));
    }

    #[test]
    fn no_false_pass_in_random_games() {
        let (mut random, mut tally) = (Random::new(3), Tally::default());
        for i in 0..4_000 {
            let model = if i % 2 == 0 { alternating_model(&mut random) } else { any_model(&mut random) };
            tally.count(judge(&model).unwrap_or_else(|what| panic!("{what}\n{}", run(&model).describe())));
        }
        assert_eq!(tally.false_passes, 0, "{tally}");
        assert!(tally.false_alarms > 0 && tally.passes > 500 && tally.alarms > 500, "{tally}");
    }

    /// Turns the order of the priorities round and keeps their parities, so that the smallest decides.
    fn turned(game: &[u32]) -> Vec<u32> {
        let mut turned = game.to_vec();
        let priorities = &mut turned[Layout::of(game).priorities()];
        priorities.iter_mut().for_each(|priority| *priority = 4_096 - *priority / 2 * 2 + *priority % 2);
        turned
    }

    #[test]
    fn a_wrong_reading_of_priorities_shows() {
        let (mut random, mut tally) = (Random::new(4), Tally::default());
        for _ in 0..2_000 {
            let model = any_model(&mut random);
            let game = turned(&finished_game(&model).expect("a finished game"));
            tally.count(verdict(&game, meaning::holds(&model)).expect("a game that is solved"));
        }
        assert!(tally.false_passes > 0, "{tally}");
    }

    #[test]
    fn which_formulas_alternate() {
        let alternate = |formula: &str| alternates(&words(formula));
        // greatest X, least Y, X alternates; least for greatest, or Y for X, or nothing inside, does not.
        assert!(alternate("3 7 6 8 0 0 0"));
        assert!(!alternate("3 6 6 8 0 0 0"));
        assert!(!alternate("3 7 6 8 0 0 1"));
        assert!(!alternate("2 7 8 0 0"));
        // greatest X, ((least Y, true) and X): the reference is not inside Y.
        assert!(!alternate("5 7 2 6 0 8 0 4 0 0 0"));
    }
}
