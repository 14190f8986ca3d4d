//! One call that expands a formula, with all that decides its outcome, performed on slices with guards around them.
use crate::check::call::show;
use crate::check::lent::Lent;
use crate::{Model, plain};

/// The length that the slice must have that a formula is written into.
pub const EXPANDED: usize = 2_049;

/// A call that expands: labels, actions, regular formulas, formula; output, answer.
pub type Expand = fn(&[u32], &[u32], &[u32], &[u32], &mut [u32], &mut [u32; 4]);

/// Where to expand.
#[derive(Clone, Copy)]
pub struct Implementation {
    pub name: &'static str,
    pub expand: Expand,
}

pub const LIBRARY: Implementation = Implementation { name: "library", expand: library_expand };
pub const PLAIN: Implementation = Implementation { name: "plain", expand: plain::expand };

// The same as in library.rs, whose function gives the answer's meaning: here its four words are compared, and the words
// around them.
unsafe extern "C" {
    fn hingrezh_expand(
        labels: *const u32,
        labels_len: usize,
        actions: *const u32,
        actions_len: usize,
        regulars: *const u32,
        regulars_len: usize,
        formula: *const u32,
        formula_len: usize,
        out: *mut u32,
        out_len: usize,
        answer: *mut u32,
    );
}

fn library_expand(
    labels: &[u32],
    actions: &[u32],
    regulars: &[u32],
    formula: &[u32],
    out: &mut [u32],
    answer: &mut [u32; 4],
) {
    // SAFETY: each pointer comes with its slice's length, the borrows last for the call, and the written slices
    // overlap nothing.
    unsafe {
        hingrezh_expand(
            labels.as_ptr(),
            labels.len(),
            actions.as_ptr(),
            actions.len(),
            regulars.as_ptr(),
            regulars.len(),
            formula.as_ptr(),
            formula.len(),
            out.as_mut_ptr(),
            out.len(),
            answer.as_mut_ptr(),
        )
    }
}

/// The four groups of words that are handed over.
#[derive(Clone, Debug, Default, PartialEq, Eq)]
pub struct Input {
    pub labels: Vec<u32>,
    pub actions: Vec<u32>,
    pub regulars: Vec<u32>,
    pub formula: Vec<u32>,
}

impl Input {
    pub fn parts(&self) -> [&Vec<u32>; 4] {
        [&self.labels, &self.actions, &self.regulars, &self.formula]
    }

    /// With one group replaced, counted from 0.
    pub fn with(mut self, group: usize, words: Vec<u32>) -> Input {
        let Input { labels, actions, regulars, formula } = &mut self;
        *[labels, actions, regulars, formula][group] = words;
        self
    }

    /// What a run takes: a system, and a formula in the place of this one.
    pub fn model(&self, system: &[u32], formula: &[u32]) -> Model {
        let (labels, actions) = (self.labels.clone(), self.actions.clone());
        Model { labels, system: system.to_vec(), actions, formula: formula.to_vec() }
    }
}

/// The length of the lent slice is free, so that wrong ones can be tried.
#[derive(Clone, Debug, PartialEq, Eq)]
pub struct Call {
    pub input: Input,
    pub out: usize,
}

impl Call {
    /// Into a slice of the right length.
    pub fn expand(input: Input) -> Call {
        Call { input, out: EXPANDED }
    }

    /// The words handed over, for finding the smallest of several calls.
    pub fn size(&self) -> usize {
        self.input.parts().iter().map(|part| part.len()).sum()
    }

    /// In a form that can be tried again.
    pub fn describe(&self) -> String {
        let parts = self.input.parts().map(|part| show(part)).join("\n");
        format!("expand into {} words; labels, actions, regular formulas, formula:\n{parts}", self.out)
    }
}

/// The lent slice as a call left it.
#[derive(Clone, Debug, PartialEq, Eq)]
pub struct Outcome {
    pub answer: [u32; 4],
    pub out: Vec<u32>,
    /// What was read and what is around all slices is as it was.
    pub intact: bool,
}

impl Outcome {
    /// The words of the formula, where one was written.
    pub fn formula(&self) -> Option<&[u32]> {
        match self.answer {
            [0, words, ..] => self.out.get(..words as usize),
            _ => None,
        }
    }

    pub fn show(&self) -> String {
        let words = self.formula().unwrap_or(&self.out[..self.out.len().min(9)]);
        format!("answer {:?}; output begins {}", self.answer, show(words))
    }
}

/// Performs a call; every word of the slice lent for writing is `fill` before.
pub fn perform(call: &Call, by: Implementation, fill: u32) -> Outcome {
    let parts = call.input.parts().map(|part| Lent::copy(part));
    let (mut out, mut answer) = (Lent::filled(call.out, fill), Lent::filled(4, fill));
    let [labels, actions, regulars, formula] = parts.each_ref().map(|part| part.read());
    let four: &mut [u32; 4] = answer.write().try_into().expect("four words");
    (by.expand)(labels, actions, regulars, formula, out.write(), four);
    let read = parts.iter().zip(call.input.parts()).all(|(part, words)| part.guarded() && part.read() == words);
    let intact = read && out.guarded() && answer.guarded();
    Outcome { answer: answer.read().try_into().expect("four words"), out: out.inner(), intact }
}

/// What holds after every call, whatever its words: zeros past the formula, and a refusal alters nothing.
pub fn unlawful(outcome: &Outcome, fill: u32) -> Option<&'static str> {
    let Outcome { answer, out, intact } = outcome;
    if !intact {
        return Some("a word outside the lent slices, or one lent for reading, was altered");
    }
    match *answer {
        [0, words, 0, 0] => {
            let (end, length) = (words as usize, out.len());
            let fine = length == EXPANDED && end <= length && out[end..].iter().all(|&word| word == 0);
            let sized = fine && end as u64 == 1 + 2 * out[0] as u64;
            (!sized).then_some("after done, the words are not 1 + 2n, or a word past them is not 0")
        }
        [2, 13 | 33 | 34 | 43..=45, _, 0] | [2, _, 0, 0] => {
            let same = out.iter().all(|&word| word == fill);
            (!same).then_some("a refusal altered the lent slice")
        }
        _ => Some("the answer's words are neither done nor refused"),
    }
}
