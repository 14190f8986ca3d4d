//! Expansions with answers written down by hand: each clause, the readings where the rules leave room, every refusal,
//! and sizes at their limits.
use super::call::{Call, EXPANDED, Input};
use super::generate::{MOST, under_fixpoints};
use super::large;
use crate::check::cases::words;
use crate::check::generate::Random;
use crate::check::places::{self, last_of_each};

pub struct Case {
    pub name: &'static str,
    pub call: Call,
    pub answer: [u32; 4],
    /// The words of the formula, where they are written down.
    pub formula: Option<Vec<u32>>,
}

/// Label 0, which is action 7, an action formula for it, a regular formula that is this one, and true.
pub fn base() -> Input {
    Input { labels: words("1 1 0 7"), actions: words("1 2 0"), regulars: words("1 0 0"), formula: words("1 0 0") }
}

pub fn all() -> Vec<Case> {
    [expanded(), refused(), wrong_lengths(), pairs()].into_iter().flatten().collect()
}

fn case(name: &'static str, call: Call, answer: [u32; 4]) -> Case {
    Case { name, call, answer, formula: None }
}

fn refusal(name: &'static str, input: Input, number: u32, place: u32) -> Case {
    case(name, Call::expand(input), [2, number, place, 0])
}

// ---- done

/// Regular formulas, a formula, and what it is expanded to.
const EXPANDED_TO: [(&str, &str, &str, &str); 28] = [
    ("no modality, no regular formulas", "0", "1 1 0", "1 1 0"),
    ("fixpoints and references stay", "1 0 0", "7 7 6 3 5 8 5 8 0 0 5 0 0 0 1", "7 7 6 3 5 8 5 8 0 0 5 0 0 0 1"),
    ("box of an action formula", "1 0 0", "2 4 0 0 0", "2 4 0 0 0"),
    ("diamond of an action formula", "1 0 0", "2 5 1 0 0", "2 5 1 0 0"),
    ("box of a sequence", "3 1 0 0 2 0 0", "2 4 0 0 0", "3 4 4 0 0 0 0"),
    ("diamond of a sequence", "3 1 0 0 2 0 0", "2 5 0 0 0", "3 5 5 0 0 0 0"),
    ("G1: box of a choice", "3 2 0 0 2 0 0", "2 4 0 0 0", "5 2 4 0 4 0 3 0 0 0 0"),
    ("diamond of a choice", "3 2 0 0 2 0 0", "2 5 0 0 0", "5 3 5 0 5 0 3 0 0 0 0"),
    ("box of a star", "2 3 0 0 0", "2 4 0 0 0", "5 7 2 4 8 0 0 4 0 0 0"),
    ("diamond of a star", "2 3 0 0 0", "2 5 0 0 0", "5 6 3 5 8 0 0 4 0 0 0"),
    ("box of a plus", "2 4 0 0 0", "2 4 0 0 0", "6 4 7 2 4 8 0 0 0 5 0 1 0"),
    ("diamond of a plus", "2 4 0 0 0", "2 5 0 0 0", "6 5 6 3 5 8 0 0 0 5 0 1 0"),
    ("G2: plus of a sequence", "4 4 1 0 0 0 3 0 0", "2 5 0 0 0", "8 5 5 6 3 5 5 8 0 0 0 0 7 0 0 2 0"),
    (
        "plus of a choice",
        "4 4 2 0 0 0 3 0 0",
        "2 4 1 0 0",
        "19 2 4 7 2 2 4 8 4 8 1 4 7 2 2 4 8 4 8 1  10 0 0 9 7 0 2 0 2 0 0 0 18 16 0 11 0 11 0",
    ),
    ("G7: fixpoints under a choice are copied", "3 2 0 0 2 0 0", "3 5 7 8 0 0 1", "7 3 5 7 8 5 7 8 4 0 0 2 0 0 5"),
    ("a reference under a choice", "3 2 0 0 2 0 0", "3 7 5 8 0 0 0", "6 7 3 5 8 5 8 0 4 0 0 0 0"),
    ("a reference out of a star", "2 3 0 0 0", "3 7 4 8 0 0 0", "6 7 7 2 4 8 8 0 0 5 0 1 0"),
    (
        "a reference out of a star and beside it",
        "2 3 0 0 0",
        "5 7 2 4 8 8 0 4 0 0 0",
        "8 7 2 7 2 4 8 8 8 0 7 0 6 0 2 0 0",
    ),
    ("a fixpoint behind a star", "2 3 0 0 0", "3 4 7 8 0 0 1", "6 7 2 4 8 7 8 0 4 0 0 0 4"),
    ("a star in a star", "3 3 3 0 0 0 0", "2 4 0 0 0", "8 7 2 7 2 4 8 8 0 0 7 0 6 0 2 0 0"),
    ("a plus in a star", "3 3 4 0 0 0 0", "2 5 0 0 0", "9 6 3 5 6 3 5 8 8 0 0 8 0 0 7 0 3 0 0"),
    ("a choice in a star", "4 3 2 0 0 0 3 0 0", "2 4 0 0 0", "8 7 2 2 4 8 4 8 0 0 7 5 0 0 0 0 0"),
    ("a star, then an action formula", "4 1 3 0 0 3 0 0 0", "2 4 1 0 0", "6 7 2 4 8 4 1 0 4 0 0 0 0"),
    ("an action formula, then a star", "4 1 0 3 0 2 0 0 0", "2 4 1 0 0", "6 4 7 2 4 8 1 0 0 5 0 1 0"),
    ("a star in a choice", "4 2 3 0 0 3 0 0 0", "2 5 1 0 0", "8 3 6 3 5 8 1 5 1 6 0 5 0 1 0 0 0"),
    ("the second regular formula", "3 3 0 0 0 0 0", "3 4 5 0 2 2 0", "3 4 5 0 0 0 0"),
    ("one regular formula twice", "2 3 0 0 0", "3 4 5 0 0 0 0", "9 7 2 4 8 6 3 5 8 0 0 4 0 0 0 8 0 4 0"),
    (
        "a sequence beside a choice",
        "6 1 0 0 2 0 0 2 0 0 5 0 0",
        "5 2 4 0 5 1 3 0 0 3 0",
        "9 2 4 4 0 3 5 1 5 1 4 0 0 0 7 0 0 0 0",
    ),
];

fn expanded() -> Vec<Case> {
    let done = |name, input: Input, formula: &str| {
        let formula = words(formula);
        let answer = [0, formula.len() as u32, 0, 0];
        Case { name, call: Call::expand(input), answer, formula: Some(formula) }
    };
    let over = |regulars: &str, formula: &str| base().with(2, words(regulars)).with(3, words(formula));
    let mut cases: Vec<Case> =
        EXPANDED_TO.iter().map(|&(name, regulars, formula, to)| done(name, over(regulars, formula), to)).collect();
    // Not label 0, then label 0; of the two, the second and then the first.
    let two = over("3 1 0 0 2 2 0", "2 4 0 0 0").with(1, words("3 5 2 2 0 0 0"));
    cases.push(done("operands name action formulas", two, "3 4 4 0 2 0 0"));
    let nothing = over("0", "1 0 0").with(0, words("0 0")).with(1, words("0"));
    cases.push(done("no labels, no action formulas", nothing, "1 0 0"));
    cases
}

// ---- refused

/// Regular formulas that are refused, all at place 0.
const MALFORMED: [&str; 35] = [
    "",
    "1",
    "1 0",
    "1 0 0 0",
    "0 0",
    "2147483648",
    "2147483649 0 0",
    "1 5 0",
    "1 4294967295 0",
    "2 3 5 0 0",
    "2 0 5 0 0",
    "1 0 1",
    "1 0 4294967295",
    "2 0 0 0 9",
    "3 1 0 0 1 0 0",
    "3 1 0 0 0 0 0",
    "3 2 0 0 1 0 0",
    "3 2 0 0 3 0 0",
    "2 3 0 1 0",
    "2 4 0 1 0",
    "2 4 0 4294967295 0",
    "4 3 1 0 0 0 2 0 0",
    "4 3 2 0 0 0 2 0 0",
    "3 3 3 0 0 1 0",
    "3 3 4 0 0 1 0",
    "2 3 0 0 1",
    "1 3 0",
    "1 4 0",
    "1 1 9",
    "1 2 9",
    "2 1 0 2 0",
    "2 2 0 2 0",
    "2 0 3 0 0",
    "3 4 0 1 0 0 9",
    "4 2 0 0 1 2 0 0 0",
];

/// Words, the number of the refusal, its place.
type Fault = (&'static str, u32, u32);

/// The base with one group of words replaced.
fn in_group(group: usize, &(text, number, place): &Fault) -> Case {
    refusal("a refusal by its place", base().with(group, words(text)), number, place)
}

fn malformed() -> Vec<Fault> {
    MALFORMED.map(|text| (text, 61, 0)).to_vec()
}

fn refused() -> Vec<Case> {
    let groups: [&[Fault]; 4] = [&places::LABELS, &places::ACTIONS, &malformed(), &places::FORMULAS];
    let of_group = |(group, faults): (usize, &[Fault])| -> Vec<Case> {
        faults.iter().map(|fault| in_group(group, fault)).collect()
    };
    let mut cases: Vec<Case> = groups.into_iter().enumerate().flat_map(of_group).collect();
    let over = |regulars: &str, formula: &str| base().with(2, words(regulars)).with(3, words(formula));
    let negation = base().with(1, words("2 5 2 0 0"));
    // An action formula begins at node 2, a regular one does not.
    let other_row = over("1 0 0", "2 4 0 2 0").with(1, words("3 2 2 2 0 0 0"));
    cases.extend([
        refusal("no labels", base().with(0, words("0 0")), 34, 0),
        refusal("an action formula, but there is none", base().with(1, words("0")), 61, 0),
        refusal("a node inside an action formula", negation.with(2, words("1 0 1")), 61, 0),
        refusal("box, but no regular formula", over("0", "2 4 0 0 0"), 44, 0),
        refusal("diamond, but no regular formula", over("0", "2 5 0 0 0"), 44, 0),
        refusal("box of a node inside a regular formula", over("2 3 0 0 0", "2 4 0 1 0"), 44, 0),
        refusal("diamond of a node inside a regular formula", over("2 3 0 0 0", "2 5 0 1 0"), 44, 0),
        refusal("a modality that names an action formula", other_row, 44, 0),
    ]);
    cases
}

fn wrong_lengths() -> Vec<Case> {
    let lengths = [0, 1, 3, EXPANDED - 2, EXPANDED - 1, EXPANDED + 1, EXPANDED + 2, 2 * EXPANDED];
    lengths.into_iter().map(|out| case("G5", Call { input: base(), out }, [2, 2, 0, 0])).collect()
}

/// Two faults at once: of one group of words, or of two; with a slice of the wrong length; with a formula that would be
/// too large.
fn pairs() -> Vec<Case> {
    let mut cases = Vec::new();
    let two: [(usize, &[Fault]); 3] =
        [(0, &places::TWO_IN_LABELS), (1, &places::TWO_IN_ACTIONS), (3, &places::TWO_IN_FORMULAS)];
    for (group, faults) in two {
        cases.extend(faults.iter().map(|fault| in_group(group, fault)));
    }
    let malformed = ["", "1 5 0", "1 0 1", "1 3 0"].map(|text| (text, 61, 0));
    let groups: [Vec<&Fault>; 4] = [
        last_of_each(&places::LABELS).collect(),
        last_of_each(&places::ACTIONS).collect(),
        malformed.iter().collect(),
        last_of_each(&places::FORMULAS).collect(),
    ];
    for (group, faults) in groups.iter().enumerate() {
        for &&(text, number, place) in faults {
            let input = base().with(group, words(text));
            for (later, others) in groups.iter().enumerate().skip(group + 1) {
                let both = others.iter().map(|other| input.clone().with(later, words(other.0)));
                cases.extend(both.map(|input| refusal("two faults", input, number, place)));
            }
            for out in [EXPANDED - 1, EXPANDED + 1] {
                cases.push(case("two faults", Call { input: input.clone(), out }, [2, 2, 0, 0]));
            }
        }
    }
    cases.extend(too_large_as_well());
    cases
}

/// Nine choices in a row are too large, and something else is wrong.
fn too_large_as_well() -> Vec<Case> {
    let name = "too large as well";
    let large = || large::boxes_of_choices(9);
    let with = |group, text: &str| large().with(group, words(text));
    // The last of ten nodes is a reference to a box.
    let mut formula = large().formula;
    (formula[10], formula[20]) = (8, 3);
    vec![
        refusal(name, large(), 62, 0),
        case(name, Call { input: large(), out: EXPANDED - 1 }, [2, 2, 0, 0]),
        refusal(name, with(0, "1 1 1 7"), 13, 2),
        refusal(name, with(1, "1 2 1"), 34, 0),
        refusal(name, with(2, "3 2 0 0 2 0 1"), 61, 0),
        refusal(name, large().with(3, formula), 45, 9),
    ]
}

// ---- sizes

/// Sizes at their limits and one past them, and results around the most nodes and far beyond.
pub fn at_limits() -> Vec<Case> {
    let labels = |l: u32, a: u32| base().with(0, [vec![l, a], vec![0; a as usize], (0..a).collect()].concat());
    let actions = |m: u32| base().with(1, [vec![m], vec![0; 2 * m as usize]].concat());
    let mut cases = vec![
        done(labels(4_096, 0), 1),
        past(labels(4_097, 0), 12),
        done(labels(1, 16_384), 1),
        past(labels(1, 16_385), 12),
        done(actions(MOST), 1),
        past(actions(MOST + 1), 32),
        done(large::row_of_actions(MOST), 2),
        past(large::row_of_actions(MOST + 1), 61),
        past(large::boxes_of_actions(MOST), 42),
        past(large::fixpoints(MOST), 42),
        done(large::full_tables(1_023), MOST),
    ];
    cases.extend(results());
    cases
}

fn done(input: Input, nodes: u32) -> Case {
    case("at a limit", Call::expand(input), [0, 1 + 2 * nodes, 0, 0])
}

fn past(input: Input, number: u32) -> Case {
    refusal("past a limit", input, number, 0)
}

/// Results that just fit or don't; the last ones have 2^32 + 1 and 2^64 + 1 nodes and far more.
fn results() -> Vec<Case> {
    let under = |input: Input, more| under_fixpoints(&mut Random::new(1), &input, more);
    vec![
        done(large::boxes_of_actions(1_023), MOST),
        done(large::fixpoints(1_023), MOST),
        done(large::choices_in_a_row(8), 1_021),
        done(under(large::choices_in_a_row(8), 3), MOST),
        past(under(large::choices_in_a_row(8), 4), 62),
        past(large::choices_in_a_row(9), 62),
        done(large::boxes_of_choices(8), 1_021),
        past(large::boxes_of_choices(9), 62),
        done(large::stars(340), 1_022),
        done(under(large::stars(340), 2), MOST),
        past(under(large::stars(340), 3), 62),
        past(large::stars(341), 62),
        done(large::pluses(8), 1_022),
        past(large::pluses(9), 62),
        done(large::boxes_of_pluses(204), 1_021),
        past(large::boxes_of_pluses(205), 62),
        done(large::boxes_of_passes(1), 513),
        past(large::boxes_of_passes(2), 62),
        done(large::stars_under_fixpoints(204), 1_021),
        past(large::stars_under_fixpoints(205), 62),
        past(large::boxes_of_passes(1_023), 62),
        done(large::conjunction_of_passes(1), 513),
        past(large::conjunction_of_passes(2), 62),
        past(large::conjunction_of_passes(341), 62),
        past(large::stars(1_023), 62),
        past(large::wrapping(30), 62),
        past(large::wrapping(62), 62),
        past(large::choices_in_a_row(256), 62),
        past(large::boxes_of_choices(1_023), 62),
        past(large::pluses(1_023), 62),
    ]
}

#[cfg(test)]
mod tests {
    use super::super::call::{LIBRARY, PLAIN, perform, unlawful};
    use super::*;

    #[test]
    fn as_written_down() {
        for case in all().into_iter().chain(at_limits()) {
            for by in [LIBRARY, PLAIN] {
                let got = perform(&case.call, by, 9);
                let what = format!("{} by {}: {}", case.name, by.name, case.call.describe());
                assert_eq!(got.answer, case.answer, "{what}");
                assert_eq!(unlawful(&got, 9), None, "{what}");
                assert!(case.formula.is_none() || case.formula.as_deref() == got.formula(), "{what}");
            }
        }
    }
}
