//! Formulas whose modalities name regular formulas, sequences, choices and repetitions of action formulas, and their
//! expansion by the proved library to formulas that a run takes.
use crate::{Answer, FileFault, Model, Refusal, library};

/// How many words are lent for an expanded formula: those of 1,024 nodes.
const EXPANDED: usize = 1 + 2 * 1_024;

/// The groups of words that a formula's file holds.
#[derive(Clone, Debug, Default, PartialEq, Eq)]
pub struct Formulas {
    pub actions: Vec<u32>,
    /// What the boxes and diamonds of the formula name, where there are such; otherwise they name action formulas.
    pub regulars: Option<Vec<u32>>,
    pub formula: Vec<u32>,
}

impl Formulas {
    /// The formula that a run takes with the same labels and action formulas: expanded by the proved library or, where
    /// there are no regular formulas, as it is, with nothing looked at.
    pub fn expand(&self, labels: &[u32]) -> Result<Vec<u32>, Refusal> {
        let Some(regulars) = &self.regulars else { return Ok(self.formula.clone()) };
        let mut out = vec![0; EXPANDED];
        match library::expand(labels, &self.actions, regulars, &self.formula, &mut out) {
            Answer::Refused(refusal) => Err(refusal),
            // An expansion is never cut.
            Answer::Done { steps, .. } | Answer::Cut { steps, .. } => {
                out.truncate(steps as usize);
                Ok(out)
            }
        }
    }
}

impl Model {
    /// Puts formulas in the place of the model's own, expanded; after a refusal the model is as it was.
    pub fn take(&mut self, formulas: &Formulas) -> Result<(), Refusal> {
        self.formula = formulas.expand(&self.labels)?;
        self.actions.clone_from(&formulas.actions);
        Ok(())
    }
}

/// What the lengths at the front of a file of formulas promise, if it has no regular formulas and if it has: then there
/// is a length more, and it is the next word. Not both can be right, since that word counts too.
#[derive(Clone, Copy, Debug, PartialEq, Eq)]
pub struct Promised {
    /// How many lengths there are without regular formulas.
    pub lengths: usize,
    /// How many words follow these, if there are no regular formulas.
    pub without: u64,
    /// The same if there are, the further length counted; none if the file ends before it.
    pub with: Option<u64>,
}

impl Promised {
    pub(crate) fn by(lengths: &[u32], next: Option<&u32>) -> Promised {
        let without = lengths.iter().map(|&length| length as u64).sum();
        Promised { lengths: lengths.len(), without, with: next.map(|&last| without + 1 + last as u64) }
    }

    /// Whether there are regular formulas, where so many words follow the lengths; none if the words are neither.
    pub(crate) fn regular(&self, found: u64) -> Option<bool> {
        match found {
            _ if found == self.without => Some(false),
            _ if Some(found) == self.with => Some(true),
            _ => None,
        }
    }

    /// Both sums, and what follows the lengths: so many words or, in a stream, more than either.
    pub(crate) fn tell(&self, found: Option<u64>) -> String {
        let many = |count: usize| ["two", "three", "four", "five"][count.clamp(2, 5) - 2];
        let (few, more, without) = (many(self.lengths), many(self.lengths + 1), self.without);
        match (found, self.with) {
            (Some(found), Some(with)) => format!(
                "the {few} lengths promise {without} words, and {found} follow; with regular formulas the {more} \
                 promise {}, and {} follow",
                with - 1,
                found.saturating_sub(1)
            ),
            (Some(found), None) => format!("the {few} lengths promise {without} words, and {found} follow"),
            (None, with) => format!(
                "the {few} lengths promise {without} words, with regular formulas the {more} promise {} words, and \
                 more follow",
                with.map_or(0, |with| with - 1)
            ),
        }
    }
}

/// The groups of a file whose formulas stand behind N others, by their lengths; the words are as many.
pub(crate) fn parted<const N: usize>(words: &[u32], lengths: &[u32]) -> ([Vec<u32>; N], Formulas) {
    let mut rest = words;
    let mut next = |at: usize| {
        let (group, behind) = rest.split_at(lengths[at] as usize);
        rest = behind;
        group.to_vec()
    };
    let front = std::array::from_fn(&mut next);
    let actions = next(N);
    let regulars = (lengths.len() > N + 2).then(|| next(N + 1));
    (front, Formulas { actions, regulars, formula: next(lengths.len() - 1) })
}

/// Four lengths, or five, and their words, as [`crate::Source::model_and_formulas`] reads them.
pub(crate) fn model_and_formulas(words: &[u32]) -> Result<(Model, Formulas), FileFault> {
    let (lengths, rest) = words.split_at_checked(4).ok_or(FileFault::NoLengths(words.len()))?;
    let (promised, found) = (Promised::by(lengths, rest.first()), rest.len() as u64);
    let ([labels, system], formulas) = match promised.regular(found) {
        Some(false) => parted(rest, lengths),
        Some(true) => parted(&rest[1..], &words[..5]),
        None => return Err(FileFault::Neither { promised, found: Some(found) }),
    };
    Ok((Model { labels, system, ..Model::default() }, formulas))
}
