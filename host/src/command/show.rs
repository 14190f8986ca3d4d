//! An input as people read it.
use super::input::Input;
use super::notation::{LOOSE, Notation};
use super::options::{ALL, Given};
use super::{DONE, Failure};
use crate::{Model, Room};
use std::fmt;
use std::io::{self, BufWriter, Write};

/// So many labels, transitions and items are listed, and so many characters of each.
const FEW: (usize, usize) = (20, 100);
const ALL_OF_THEM: (usize, usize) = (usize::MAX, 4_000);

pub fn run(given: &Given) -> Result<u8, Failure> {
    let input = Input::read(&given.files)?;
    if let Some(refusal) = input.model.fault() {
        return Err(Failure::refused(input.told(&refusal, Room::MOST)));
    }
    let (most, width) = if given.has(&ALL) { ALL_OF_THEM } else { FEW };
    let out = &mut BufWriter::new(io::stdout().lock());
    let notation = Notation::new(&input.model);
    let before = input.formulas.regulars.is_some().then(|| Notation::before(&input.model.labels, &input.formulas));
    let shown = Shown { model: &input.model, notation, before, most, width };
    shown.write(out).and_then(|()| out.flush()).map_err(|error| Failure::writing("standard output", error))?;
    Ok(DONE)
}

struct Shown<'a> {
    model: &'a Model,
    notation: Notation<'a>,
    /// The formula over regular formulas, if there are any.
    before: Option<Notation<'a>>,
    most: usize,
    width: usize,
}

impl Shown<'_> {
    fn write(&self, out: &mut impl Write) -> io::Result<()> {
        let labels = self.model.labels[0] as usize;
        writeln!(out, "labels: {labels}")?;
        self.list(out, 0..labels, |text, label| self.notation.label_in_full(text, label))?;
        self.system(out)?;
        let expanded = match &self.before {
            Some(before) => {
                self.regulars(out, before)?;
                "expanded "
            }
            None => "",
        };
        writeln!(out, "{expanded}formula: {} nodes", self.model.formula[0])?;
        formula(out, &self.notation)?;
        let items = self.notation.items();
        writeln!(out, "items: {}", items.len())?;
        self.list(out, 0..items.len(), |text, item| self.notation.item(text, &items[item]))
    }

    fn system(&self, out: &mut impl Write) -> io::Result<()> {
        let [states, transitions, initial] = [0, 1, 2].map(|at| self.model.system[at] as usize);
        writeln!(out, "system: {states} states, {transitions} transitions, initial state {initial}")?;
        let (degrees, rest) = self.model.system[3..].split_at(states);
        let (labels, targets) = rest.split_at(transitions);
        let mut sources = degrees.iter().enumerate().flat_map(|(state, &degree)| (0..degree).map(move |_| state));
        self.list(out, 0..transitions, |text, transition| {
            let source = sources.next().unwrap_or(0);
            self.notation.transition(text, source, labels[transition] as usize, targets[transition])
        })
    }

    /// The formula over regular formulas, and these, each by its first node.
    fn regulars(&self, out: &mut impl Write, before: &Notation) -> io::Result<()> {
        writeln!(out, "formula over regular formulas: {} nodes", before.nodes())?;
        formula(out, before)?;
        let first = before.regulars();
        writeln!(out, "regular formulas: {}", first.len())?;
        self.list(out, first.into_iter(), |text, node| before.regular(text, node, LOOSE))
    }

    /// The first lines, and how many there are beside them.
    fn list(
        &self,
        out: &mut impl Write,
        numbers: impl ExactSizeIterator<Item = usize>,
        mut line: impl FnMut(&mut Short, usize) -> fmt::Result,
    ) -> io::Result<()> {
        let more = numbers.len().saturating_sub(self.most);
        for at in numbers.take(self.most) {
            let mut text = Short { text: String::new(), width: self.width };
            let end = if line(&mut text, at).is_ok() { "" } else { " ..." };
            writeln!(out, "  {at}  {}{end}", text.text)?;
        }
        match more {
            0 => Ok(()),
            _ => writeln!(out, "  and {more} more (--all lists them)"),
        }
    }
}

/// The whole formula, which may be long, as it is made.
fn formula(out: &mut impl Write, notation: &Notation) -> io::Result<()> {
    write!(out, "  ")?;
    let mut through = Through { out, failed: None };
    let written = notation.formula(&mut through);
    through.failed.map_or(Ok(()), Err)?;
    written.map_err(io::Error::other)?;
    writeln!(out)
}

/// Text that ends at a width: an item may be as long as the formula, and there are many.
struct Short {
    text: String,
    width: usize,
}

impl fmt::Write for Short {
    fn write_str(&mut self, part: &str) -> fmt::Result {
        if self.text.len() + part.len() > self.width {
            return Err(fmt::Error);
        }
        self.text.push_str(part);
        Ok(())
    }
}

/// Text that goes out at once.
struct Through<'a, W> {
    out: &'a mut W,
    failed: Option<io::Error>,
}

impl<W: Write> fmt::Write for Through<'_, W> {
    fn write_str(&mut self, part: &str) -> fmt::Result {
        self.out.write_all(part.as_bytes()).map_err(|error| {
            self.failed = Some(error);
            fmt::Error
        })
    }
}

#[cfg(test)]
mod tests {
    use super::{FEW, Shown};
    use crate::command::notation::Notation;
    use crate::nodes::Nodes;
    use crate::sizes::expanded_nodes;
    use crate::{Formulas, Game, Model, Refusal, Room, try_restrict};

    /// Numbers without a pattern.
    struct Mixed(u64);

    impl Mixed {
        fn below(&mut self, n: usize) -> usize {
            self.0 = self.0.wrapping_mul(6_364_136_223_846_793_005).wrapping_add(1_442_695_040_888_963_407);
            (self.0 >> 33) as usize % n
        }

        /// Changes, drops or adds a word.
        fn change(&mut self, words: &mut Vec<u32>) {
            let (at, word) = (self.below(words.len() + 1), [0, 1, 2, 3, 5, 7, 8, 9, u32::MAX][self.below(9)]);
            match self.below(6) {
                0 => words.insert(at, word),
                1 => drop(words.drain(at..)),
                _ => words.iter_mut().skip(at).take(1).for_each(|old| *old = word),
            }
        }
    }

    fn base() -> Model {
        let words = |text: &str| text.split(' ').map(|word| word.parse().unwrap()).collect();
        Model {
            labels: words("3 4 0 0 1 1 7 9 9 7"),
            system: words("2 3 0 2 1 0 1 2 0 1 1"),
            actions: words("7 3 2 5 2 4 0 2 2 0 0 1 6 0 2"),
            formula: words("11 3 2 0 6 5 8 7 4 2 8 8 6 3 0 0 0 3 0 4 10 6 6"),
        }
    }

    fn show(model: &Model, before: Option<Notation>) -> String {
        let mut text = Vec::new();
        let shown = Shown { model, notation: Notation::new(model), before, most: FEW.0, width: FEW.1 };
        shown.write(&mut text).unwrap();
        String::from_utf8(text).unwrap()
    }

    /// Whatever the words are, they are shown or told, and nothing panics.
    #[test]
    fn any_words() {
        let (mut mixed, mut shown, mut told) = (Mixed(1), 0, std::collections::HashSet::new());
        for _ in 0..30_000 {
            let mut model = base();
            for _ in 0..=mixed.below(2) {
                let Model { labels, system, actions, formula } = &mut model;
                let group = [labels, system, actions, formula].into_iter().nth(mixed.below(4)).unwrap();
                mixed.change(group);
            }
            if let Some(refusal) = model.fault() {
                assert!(refusal.in_model(&model, Room::MOST).len() > 20);
                told.insert(refusal.number);
                continue;
            }
            shown += 1;
            show(&model, None);
        }
        assert!(shown > 1_000, "{shown} are shown");
        assert!(told.len() > 14, "{told:?} are told");
    }

    /// Whether the last tree of the row is unfinished.
    fn is_unfinished(regulars: &[u32]) -> bool {
        let nodes = Nodes::of_regulars(regulars);
        nodes.first_nodes().last().is_some_and(|&first| nodes.end(first).is_err())
    }

    /// A refused expansion is told by a thing that is there: of 61 by one that is wrong, of 62 by the right number.
    fn tell(refusal: &Refusal, labels: &[u32], formulas: &Formulas) {
        let told = refusal.in_formulas(labels, formulas);
        assert!(told.len() > 20 && told != refusal.what(), "{told}");
        let regulars = formulas.regulars.as_deref().unwrap();
        assert!(!told.starts_with("the regular tree") || is_unfinished(regulars), "{told}: {regulars:?}");
        assert!(refusal.number != 62 || expanded_nodes(formulas).is_none_or(|nodes| nodes > 1024), "{formulas:?}");
    }

    /// The same of formulas over regular formulas.
    #[test]
    fn any_regular_formulas() {
        let words = |text: &str| -> Vec<u32> { text.split(' ').map(|word| word.parse().unwrap()).collect() };
        // The choice at node 8 stands under some boxes, of which six are too many.
        let whole = [3, 4, 5, 6].map(|boxes| Formulas {
            actions: base().actions,
            regulars: Some(words("11 1 3 2 0 0 4 0 0 2 0 0 5 0 4 0 4 0 0 4 10 4 0")),
            formula: {
                let (kinds, operands) = (vec![4; boxes], vec![8; boxes]);
                let (y, n) = (boxes as u32 + 4, boxes as u32 + 9);
                let kinds = [&[7, 2][..], &kinds, &[5, 8, 6, 3, 8, 5, 8]].concat();
                [&[n], &kinds[..], &[0, y], &operands, &[0, 0, 0, y + 3, 0, 7, y]].concat()
            },
        });
        let (mut mixed, mut shown, mut told) = (Mixed(3), 0, std::collections::HashMap::new());
        for _ in 0..60_000 {
            let (mut model, mut formulas) = (base(), whole[mixed.below(4)].clone());
            for _ in 0..=mixed.below(2) {
                let Formulas { actions, regulars, formula } = &mut formulas;
                let group = [actions, regulars.as_mut().unwrap(), formula].into_iter().nth(mixed.below(3)).unwrap();
                mixed.change(group);
            }
            if let Err(refusal) = model.take(&formulas) {
                tell(&refusal, &model.labels, &formulas);
                *told.entry(refusal.number).or_insert(0) += 1;
                continue;
            }
            assert_eq!(model.fault(), None, "what is written is accepted: {formulas:?}");
            assert_eq!(expanded_nodes(&formulas), Some(model.formula[0] as u64), "{formulas:?}");
            shown += 1;
            let text = show(&model, Some(Notation::before(&model.labels, &formulas)));
            assert!(text.contains("formula over regular formulas: "), "{text}");
        }
        assert!(shown > 1_000 && told.len() > 6, "{shown} are shown, {told:?} are told");
        assert!(told[&61] > 1_000 && told[&62] > 100, "{told:?}");
    }

    /// The restriction and the view by vertex agree on what a game is, cut games aside.
    #[test]
    fn any_games() {
        let whole = base().build(Room::MOST, u32::MAX).game;
        assert!(Game::of_words(&whole).is_ok());
        let mut mixed = Mixed(2);
        for _ in 0..30_000 {
            let mut game = whole.clone();
            (0..=mixed.below(2)).for_each(|_| mixed.change(&mut game));
            let refused = match try_restrict(&game).unwrap().answer {
                crate::Answer::Refused(refusal) => Some(refusal),
                _ => None,
            };
            refused.iter().for_each(|refusal| assert!(refusal.in_game(&game).len() > 20));
            match Game::of_words(&game) {
                Ok(view) => assert_eq!(refused.is_some(), view.is_cut(), "{game:?}"),
                Err(fault) if game.contains(&2) => assert_eq!(Some(fault.number), refused.map(|it| it.number)),
                Err(fault) => assert_eq!(Some(fault), refused, "{game:?}"),
            }
        }
    }
}
