//! Inputs to be refused, with the answers written down by hand: one for each kind of place (`kinds`) or more, and
//! inputs with two faults at once.
use super::call::Call;
use super::cases::{Case, words};
use crate::Model;

/// A call that must be refused so.
fn refusal(call: Call, number: u32, place: u32) -> Case {
    Case { name: "a refusal by its place", call, answer: [2, number, place, 0], game: None, map: None }
}

pub fn all() -> Vec<Case> {
    [single(), exceeded(), pairs()].into_iter().flatten().collect()
}

/// Label words, the number of the refusal, its place.
pub(super) const LABELS: [(&str, u32, u32); 14] = [
    ("", 11, 0),
    ("1", 11, 0),
    ("1 2 0 7", 11, 0),
    ("1 1 0 7 7", 11, 0),
    ("1 2147483648", 11, 0),
    ("1 2147483649 0 7", 11, 0),
    ("4097 0", 12, 0),
    ("4294967295 1 0 7", 12, 0),
    ("1 1 1 7", 13, 2),
    ("0 1 0 7", 13, 2),
    ("1 1 4294967295 7", 13, 2),
    ("1 2 0 1 7 7", 13, 3),
    ("2 2 1 0 7 7", 13, 3),
    ("3 3 0 2 1 7 7 7", 13, 4),
];

const SYSTEMS: [(&str, u32, u32); 23] = [
    ("", 21, 0),
    ("1", 21, 0),
    ("1 0", 21, 0),
    ("1 0 0", 21, 0),
    ("1 1 0 1 0", 21, 0),
    ("1 0 0 0 0", 21, 0),
    ("0 2147483648 0", 21, 0),
    ("4294967295 1 0 0", 21, 0),
    ("0 0 0", 22, 0),
    ("0 1 0 0 0", 22, 0),
    ("1 1 1 1 0 0", 23, 2),
    ("1 0 4294967295 0", 23, 2),
    ("1 1 0 0 0 0", 24, 1),
    ("1 1 0 2 0 0", 24, 1),
    ("2 0 0 2147483648 2147483648", 24, 1),
    ("2 1 0 4294967295 2 0 0", 24, 1),
    ("1 1 0 1 1 0", 25, 4),
    ("1 1 0 1 4294967295 0", 25, 4),
    ("1 2 0 2 0 1 0 0", 25, 5),
    ("1 1 0 1 0 1", 26, 5),
    ("1 1 0 1 0 4294967295", 26, 5),
    ("1 2 0 2 0 0 0 1", 26, 7),
    ("2 2 0 1 1 0 0 2 0", 26, 7),
];

pub(super) const ACTIONS: [(&str, u32, u32); 29] = [
    ("", 31, 0),
    ("1", 31, 0),
    ("1 2", 31, 0),
    ("1 2 0 0", 31, 0),
    ("2147483648", 31, 0),
    ("2147483649 2 0", 31, 0),
    ("1 6 0", 33, 0),
    ("1 4294967295 0", 33, 0),
    ("2 2 6 0 0", 33, 1),
    ("1 0 1", 34, 0),
    ("1 1 1", 34, 0),
    ("1 2 1", 34, 0),
    ("3 3 2 2 1 0 0", 34, 0),
    ("3 4 2 2 1 0 0", 34, 0),
    ("2 5 2 1 0", 34, 0),
    ("2 2 0 0 1", 34, 1),
    ("2 5 0 0 1", 34, 1),
    ("2 5 1 0 1", 34, 1),
    ("2 5 2 0 1", 34, 1),
    ("4 5 3 2 2 0 2 0 0", 34, 1),
    ("4 5 4 2 2 0 2 0 0", 34, 1),
    ("3 5 5 2 0 1 0", 34, 1),
    ("3 3 2 2 2 0 1", 34, 2),
    ("1 5 0", 34, 1),
    ("2 2 5 0 0", 34, 2),
    ("1 3 9", 34, 1),
    ("2 3 2 2 0", 34, 2),
    ("1 4 9", 34, 1),
    ("2 4 2 2 0", 34, 2),
];

pub(super) const FORMULAS: [(&str, u32, u32); 47] = [
    ("", 41, 0),
    ("1", 41, 0),
    ("1 0", 41, 0),
    ("1 0 0 0", 41, 0),
    ("2147483648", 41, 0),
    ("2147483649 0 0", 41, 0),
    ("0", 42, 0),
    ("1 9 0", 43, 0),
    ("1 4294967295 0", 43, 0),
    ("2 6 9 0 0", 43, 1),
    ("2 0 9 0 0", 43, 1),
    ("1 0 1", 44, 0),
    ("1 1 1", 44, 0),
    ("3 2 0 0 1 0 0", 44, 0),
    ("3 3 0 0 1 0 0", 44, 0),
    ("2 4 0 1 0", 44, 0),
    ("2 5 0 1 0", 44, 0),
    ("2 6 0 1 0", 44, 0),
    ("2 7 0 1 0", 44, 0),
    ("2 6 0 0 1", 44, 1),
    ("2 6 1 0 1", 44, 1),
    ("4 6 2 0 0 0 2 0 0", 44, 1),
    ("4 6 3 0 0 0 2 0 0", 44, 1),
    ("3 6 4 0 0 1 0", 44, 1),
    ("3 6 5 0 0 1 0", 44, 1),
    ("3 6 6 0 0 1 0", 44, 1),
    ("3 6 7 0 0 1 0", 44, 1),
    ("1 2 9", 44, 1),
    ("2 2 0 2 0", 44, 2),
    ("1 3 9", 44, 1),
    ("2 3 0 2 0", 44, 2),
    ("1 4 0", 44, 1),
    ("1 5 0", 44, 1),
    ("1 6 0", 44, 1),
    ("1 7 0", 44, 1),
    ("2 0 0 0 0", 44, 1),
    ("3 6 8 0 0 0 0", 44, 2),
    ("1 8 0", 45, 0),
    ("2 6 8 0 1", 45, 1),
    ("4 2 8 6 0 2 2 0 0", 45, 1),
    ("2 6 8 0 2", 45, 1),
    ("2 6 8 0 4294967295", 45, 1),
    ("2 4 8 0 0", 45, 1),
    ("2 5 8 0 0", 45, 1),
    ("3 2 8 0 2 0 0", 45, 1),
    ("3 2 0 8 2 0 1", 45, 2),
    ("4 2 6 0 8 3 0 0 1", 45, 3),
];

const GAMES: [(&str, u32, u32); 26] = [
    ("", 51, 0),
    ("1", 51, 0),
    ("1 0", 51, 0),
    ("1 0 0", 51, 0),
    ("1 0 0  0  0  0  0  0", 51, 0),
    ("1 0 0  0  0  0  0  0 0  0", 51, 0),
    // Without some of states, items and counts, as games were before.
    ("1 0 0  0  0  0 0", 51, 0),
    ("1 1 0  0  0  0 1  0", 51, 0),
    ("1 1 0  0  0  0 1  0  0", 51, 0),
    ("1 1 0  0  0  0  0  0 1  0", 51, 0),
    ("1 2147483645 0", 51, 0),
    ("858993460 0 0 0 0 0 0 0", 51, 0),
    ("0 0 0 0", 51, 0),
    ("0 1 0 0 0 0", 51, 0),
    ("1 1 0  0  0  0  0  1 1  0  0", 52, 7),
    ("3 2 0  0 0 0  0 0 0  0 0 0  0 0 0  0 2 1 2  0 0  1 1", 52, 17),
    ("2 1 0  0 1  0 0  9 8  7 6  0 2 1  0  5", 52, 13),
    ("1 1 0  0  0  0  0  0 0  0  0", 52, 8),
    ("1 1 0  0  0  0  0  0 2  0  0", 52, 8),
    ("1 1 1  0  0  0  0  0 1  0  0", 53, 2),
    ("1 1 4294967295  0  0  0  0  0 1  0  0", 53, 2),
    ("1 1 0  2  0  0  0  0 1  0  0", 53, 3),
    ("2 1 0  0 2  0 0  0 0  0 0  0 1 1  0  2", 53, 4),
    ("1 1 0  0  0  0  0  0 1  1  0", 53, 9),
    ("1 1 0  0  0  4294967295  4294967295  0 1  4294967295  4294967295", 53, 9),
    ("1 2 0  0  0  0  0  0 2  0 1  9 9", 53, 10),
];

/// Two faults of one group of words: the smaller number, or the smaller place, answers.
pub(super) const TWO_IN_LABELS: [(&str, u32, u32); 3] =
    [("4097 1 4097 7", 12, 0), ("2 3 2 1 0 7 7 7", 13, 2), ("2 3 1 0 2 7 7 7", 13, 3)];
const TWO_IN_SYSTEMS: [(&str, u32, u32); 9] = [
    ("0 1 9 9 9", 22, 0),
    ("1 1 1 2 0 0", 23, 2),
    ("1 1 1 1 1 0", 23, 2),
    ("1 1 1 1 0 1", 23, 2),
    ("1 1 0 0 1 0", 24, 1),
    ("1 1 0 0 0 1", 24, 1),
    ("1 1 0 1 1 1", 25, 4),
    ("1 2 0 2 0 1 1 0", 25, 5),
    ("1 2 0 2 0 0 1 1", 26, 6),
];
pub(super) const TWO_IN_ACTIONS: [(&str, u32, u32); 6] = [
    ("2 0 6 1 0", 33, 1),
    ("2 6 5 0 0", 33, 0),
    ("2 6 6 0 0", 33, 0),
    ("2 0 0 1 1", 34, 0),
    ("2 0 5 1 0", 34, 0),
    ("2 3 5 0 0", 34, 2),
];
pub(super) const TWO_IN_FORMULAS: [(&str, u32, u32); 12] = [
    ("2 0 9 1 0", 43, 1),
    ("2 9 9 0 0", 43, 0),
    ("2 9 8 0 5", 43, 0),
    ("3 6 8 0 0 9 0", 44, 2),
    ("2 6 8 1 9", 44, 0),
    ("3 2 8 0 0 9 0", 44, 0),
    ("2 6 6 0 1", 44, 1),
    ("2 0 0 1 0", 44, 0),
    ("2 0 0 0 1", 44, 1),
    ("3 0 8 4 0 9 0", 44, 1),
    ("3 2 8 8 2 0 1", 45, 1),
    ("4 2 0 8 6 2 0 0 0", 44, 3),
];
const TWO_IN_GAMES: [(&str, u32, u32); 8] = [
    ("0 1 1 1 9 0", 51, 0),
    ("1 1 1  2  0  0  0  1 1  1  0", 52, 7),
    ("2 1 0  0 0  0 0  0 0  0 0  1 0 1  0  0", 52, 11),
    ("3 1 0  0 0 0  0 0 0  0 0 0  0 0 0  0 2 1 0  9  0", 52, 17),
    ("1 1 1  2  0  0  0  0 1  1  0", 53, 2),
    ("1 1 0  2  0  0  0  0 1  1  0", 53, 3),
    ("2 2 0  2 2  0 0  0 0  0 0  0 1 2  2 2  0 0", 53, 3),
    ("1 2 0  0  0  0  0  0 2  1 1  0 0", 53, 9),
];

/// One state with a loop on label 0, which is action 7; the formula is true.
pub fn base() -> Model {
    Model { labels: words("1 1 0 7"), system: words("1 1 0 1 0 0"), actions: words("1 2 0"), formula: words("1 0 0") }
}

fn refused(model: Model, number: u32, place: u32) -> Case {
    refusal(Call::build(model, 16, 32, 99), number, place)
}

/// The base with one of the four groups replaced; `group` counts them.
fn with(mut model: Model, group: usize, text: &str) -> Model {
    let Model { labels, system, actions, formula } = &mut model;
    *[labels, system, actions, formula][group] = words(text);
    model
}

/// Every kind of place of 11 to 45 once or more, and 51 to 53.
pub fn single() -> Vec<Case> {
    let groups: [&[(&str, u32, u32)]; 4] = [&LABELS, &SYSTEMS, &ACTIONS, &FORMULAS];
    let mut all = in_groups(groups);
    all.extend(GAMES.iter().map(in_game));
    let model = |labels: &str, system: &str, actions: &str, formula: &str| Model {
        labels: words(labels),
        system: words(system),
        actions: words(actions),
        formula: words(formula),
    };
    all.extend([
        refused(model("0 0", "1 1 0 1 0 0", "0", "1 0 0"), 25, 4),
        refused(model("0 0", "1 0 0 0", "1 2 0", "1 0 0"), 34, 0),
        refused(model("1 1 0 7", "1 0 0 0", "0", "2 4 0 0 0"), 44, 0),
        refused(model("1 1 0 7", "1 0 0 0", "0", "2 5 0 0 0"), 44, 0),
        refused(model("1 1 0 7", "1 0 0 0", "2 5 2 0 0", "2 4 0 1 0"), 44, 0),
        refused(model("1 1 0 7", "1 0 0 0", "2 5 2 0 0", "2 5 0 1 0"), 44, 0),
    ]);
    all
}

fn in_groups(groups: [&[(&str, u32, u32)]; 4]) -> Vec<Case> {
    let mut all = Vec::new();
    for (group, faults) in groups.into_iter().enumerate() {
        all.extend(faults.iter().map(|&(text, number, place)| refused(with(base(), group, text), number, place)));
    }
    all
}

fn in_game(&(text, number, place): &(&str, u32, u32)) -> Case {
    refusal(Call::restrict(words(text)), number, place)
}

/// Rooms that a run exceeds: by a vertex in the first step and later, by an edge, by an added self-loop, by both at
/// once, in the last of k steps and after fewer.
pub fn exceeded() -> Vec<Case> {
    let run = |formula: &str, v, e, k| refusal(Call::build(with(base(), 3, formula), v, e, k), 60, 0);
    let (one, four, five) = ("3 7 5 8 0 0 0", "3 2 0 0 2 0 0", "6 3 5 0 2 1 0 3 0 0 5 0 0");
    vec![
        run("1 0 0", 1, 32, 1),
        run("1 0 0", 1, 32, 99),
        run(one, 2, 32, 99),
        run(one, 2, 32, 2),
        run(one, 16, 1, 99),
        run(one, 16, 1, 2),
        run(one, 16, 2, 3),
        run("1 0 0", 16, 1, 99),
        run("1 1 0", 16, 1, 2),
        run(four, 16, 3, 3),
        run(four, 2, 2, 99),
        run(four, 2, 2, 2),
        run(five, 5, 8, 3),
        run(five, 6, 5, 4),
        run(five, 6, 7, 99),
        run(five, 5, 7, 99),
    ]
}

/// Two faults at once: of different groups of words, each number with each later one; of one group; of a group and
/// the room, or the lent slices, or the game and the slices lent for it.
pub fn pairs() -> Vec<Case> {
    let groups: [&[(&str, u32, u32)]; 4] = [&LABELS, &SYSTEMS, &ACTIONS, &FORMULAS];
    let mut all = in_groups([&TWO_IN_LABELS, &TWO_IN_SYSTEMS, &TWO_IN_ACTIONS, &TWO_IN_FORMULAS]);
    all.extend(TWO_IN_GAMES.iter().map(in_game));
    for (group, faults) in groups.into_iter().enumerate() {
        for &(text, number, place) in last_of_each(faults) {
            let model = with(base(), group, text);
            for (later, others) in groups.into_iter().enumerate().skip(group + 1) {
                let both = last_of_each(others).map(|other| with(model.clone(), later, other.0));
                all.extend(both.map(|model| refused(model, number, place)));
            }
            let (vertices, edges, limit) = (16, 32, 99);
            let lent = |game, work| Call::Build { model: model.clone(), vertices, edges, limit, game, work };
            all.push(refusal(Call::build(model.clone(), 0, 32, 99), 1, 0));
            all.push(refusal(lent(149, 192), 2, 0));
            all.push(refusal(lent(148, 191), 2, 0));
            // Room for less than the game needs: 60 is last.
            all.push(refusal(Call::build(model.clone(), 1, 1, 99), number, place));
        }
    }
    for &(text, number, place) in last_of_each(&GAMES) {
        let lent = |out, map, work| Call::Restrict { game: words(text), out, map, work };
        all.extend([lent(0, 1, 1), lent(13, 2, 1), lent(11, 1, 0)].map(|call| refusal(call, number, place)));
    }
    let model = base();
    let (vertices, edges) = (0, 32);
    all.push(refusal(Call::Build { model, vertices, edges, limit: 99, game: 1, work: 1 }, 1, 0));
    all
}

/// The last fault of each number.
pub(super) fn last_of_each<'a>(faults: &'a [(&'a str, u32, u32)]) -> impl Iterator<Item = &'a (&'a str, u32, u32)> {
    faults.iter().enumerate().filter(|(i, fault)| faults.get(i + 1).is_none_or(|next| next.1 != fault.1)).map(|at| at.1)
}
