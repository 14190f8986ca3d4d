//! Stored runs of the program `expansions`: calls as records, and what they answer as lines.
//!
//! A record has five little-endian words: the lengths of labels, actions, regular formulas and formula, and of the lent
//! slice; then the words of the four, one after the other.
//!
//! A line has the answer as the thin program prints it, `|`, the words that were written, `|`, and how many others of
//! the lent slice are not as they must be: 0 past what was written, and as they were after a refusal.
use super::call::{Call, Input, Outcome, PLAIN, perform, unlawful};
use super::generate::{Sizes, all_regulars, random_input};
use super::{cases, damage};
use crate::check::generate::{Random, table};
use crate::{Answer, bytes_of};

/// The most words of a group, and of the lent slice.
pub const MOST: usize = 4_096;

/// What the lent slice holds before a call, word by word.
pub const FILL: u32 = 7;

const HEAD: usize = 5;

/// `None` if the call is too large for the program.
pub fn coded(Call { input, out }: &Call) -> Option<Vec<u8>> {
    let lengths = input.parts().map(|part| part.len());
    let fits = lengths.iter().all(|&length| length <= MOST) && *out <= MOST;
    let head = lengths.iter().chain([out]).map(|&length| length as u32).collect();
    fits.then(|| bytes_of(&[vec![head], input.parts().map(Vec::clone).to_vec()].concat().concat()))
}

/// The calls of a file; `None` if it doesn't end with a whole record.
pub fn calls(mut words: &[u32]) -> Option<Vec<Call>> {
    let mut all = Vec::new();
    while !words.is_empty() {
        let (&[labels, actions, regulars, formula, out], mut rest) = words.split_first_chunk::<HEAD>()?;
        let mut slice = |length: u32| {
            let (front, back) = rest.split_at_checked(length as usize)?;
            rest = back;
            Some(front.to_vec())
        };
        let (labels, actions) = (slice(labels)?, slice(actions)?);
        let input = Input { labels, actions, regulars: slice(regulars)?, formula: slice(formula)? };
        all.push(Call { input, out: out as usize });
        words = rest;
    }
    Some(all)
}

/// The line of a call's outcome.
pub fn line(outcome: &Outcome) -> String {
    let (written, kept) = outcome.formula().map_or((0, FILL), |formula| (formula.len(), 0));
    let (formula, rest) = outcome.out.split_at(written);
    let words: String = formula.iter().map(|word| format!(" {word}")).collect();
    let others = rest.iter().filter(|&&word| word != kept).count();
    format!("{} |{words} | {others}\n", Answer::of_words(outcome.answer))
}

/// Where the plain implementation's outcome is not the one written down by hand, that case.
pub fn not_as_written_down() -> Option<String> {
    let wrong = |case: &cases::Case| {
        let got = perform(&case.call, PLAIN, FILL);
        let other = case.formula.as_ref().is_some_and(|formula| got.formula() != Some(formula));
        got.answer != case.answer || other || unlawful(&got, FILL).is_some()
    };
    let case = cases::all().into_iter().chain(cases::at_limits()).find(wrong)?;
    Some(format!("{}: not {:?}\n{}", case.name, case.answer, case.call.describe()))
}

/// The cases written down by hand, those at the limits among them; small regular formulas under box and diamond of a
/// fixpoint; random inputs, whole and damaged.
pub fn all() -> Vec<Call> {
    let mut calls: Vec<Call> = cases::all().into_iter().chain(cases::at_limits()).map(|case| case.call).collect();
    let mut random = Random::new(53);
    let small = (1..=4).flat_map(|size| all_regulars(size, &[0, 1])).step_by(3);
    for (i, regular) in small.enumerate() {
        // Label 0 and its negation; box or diamond 0, greatest or least X, diamond or box 0, X.
        let kinds = [4, 5, 6, 7];
        let formula = table(&[(kinds[i % 2], 0), (kinds[2 + i / 2 % 2], 0), (kinds[(i + 1) % 2], 0), (8, 1)]);
        let input = Input {
            labels: vec![2, 1, 0, 7],
            actions: table(&[(2, 0), (5, 0), (2, 0)]),
            regulars: table(&regular),
            formula,
        };
        calls.push(Call::expand(input));
    }
    for _ in 0..60 {
        calls.push(Call::expand(random_input(&mut random, Sizes { regular: 7, formula: 12 })));
        let mut damaged = Call::expand(random_input(&mut random, Sizes { regular: 5, formula: 8 }));
        (0..random.pick(&[1, 1, 2])).for_each(|_| damage::damage(&mut random, &mut damaged));
        calls.push(damaged);
    }
    calls
}
