//! Damaged expansions: words and lengths changed at random, once or several times.
use super::call::{Call, Input};
use crate::check::damage::{damage_size, damage_words};
use crate::check::generate::Random;

/// Changes one thing about a call, which may leave it valid. The regular formulas are the group that no other call has.
pub fn damage(random: &mut Random, call: &mut Call) {
    let sizes = call.input.parts().map(|part| part.first().copied().unwrap_or(0));
    let Input { labels, actions, regulars, formula } = &mut call.input;
    let group = random.pick(&[0, 1, 2, 2, 2, 3, 3]);
    let words = [labels, actions, regulars, formula].into_iter().nth(group).expect("one of the four");
    match random.below(40) {
        0 => call.out = random.pick(&[0, 1, 2, 2_047, 2_048, 2_050, 2_051, 4_096]),
        1 | 2 if group > 0 => damage_size(random, words),
        _ => damage_words(random, words, &sizes),
    }
}
