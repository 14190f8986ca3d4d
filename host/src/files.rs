//! Files of words and texts, read within bounds: their size and the lengths at their front are looked at before memory
//! is asked for, so that a file of any size is refused at once.
use crate::game::game_words;
use crate::regular::parted;
use crate::{FileFault, Formulas, Group, Model, Promised, Room};
use std::fmt;
use std::fs::File;
use std::io::{self, Read};

/// Why a file could not be read.
#[derive(Debug)]
pub enum ReadError {
    Io(io::Error),
    Fault(FileFault),
}

impl fmt::Display for ReadError {
    fn fmt(&self, f: &mut fmt::Formatter) -> fmt::Result {
        match self {
            ReadError::Io(error) => error.fmt(f),
            ReadError::Fault(fault) => fault.fmt(f),
        }
    }
}

impl std::error::Error for ReadError {}

impl From<io::Error> for ReadError {
    fn from(error: io::Error) -> ReadError {
        ReadError::Io(error)
    }
}

impl From<FileFault> for ReadError {
    fn from(fault: FileFault) -> ReadError {
        ReadError::Fault(fault)
    }
}

/// The most words that a game has.
const GAME: u64 = game_words(Room::MOST.vertices as usize, Room::MOST.edges as usize) as u64;

/// The most bytes of a text: what no game needs, so that names and repeated successors have room as well.
const TEXT: u64 = 1 << 28;

/// How PGSolver text begins, as words; no game has so many vertices.
const HEADER: [u32; 2] = [u32::from_le_bytes(*b"pari"), u32::from_le_bytes(*b"ty \0")];

/// A file or a stream of words, or a text.
pub struct Source<R> {
    from: R,
    /// Known for files alone.
    bytes: Option<u64>,
    read: usize,
}

impl Source<File> {
    pub fn open(file: &str) -> io::Result<Source<File>> {
        let from = File::open(file)?;
        let about = from.metadata()?;
        Ok(Source { from, bytes: about.is_file().then_some(about.len()), read: 0 })
    }
}

impl<R: Read> Source<R> {
    pub fn stream(from: R) -> Source<R> {
        Source { from, bytes: None, read: 0 }
    }

    /// The same bytes through another reader.
    pub fn through<S: Read>(self, wrap: impl FnOnce(R) -> S) -> Source<S> {
        Source { from: wrap(self.from), bytes: self.bytes, read: self.read }
    }

    pub fn into_inner(self) -> R {
        self.from
    }

    /// Four lengths, then labels, system, action formulas and formula; or five, with regular formulas before the
    /// formula. The model's own formula is left empty.
    pub fn model_and_formulas(&mut self) -> Result<(Model, Formulas), ReadError> {
        let ([labels, system], formulas) = self.groups_and_formulas([Group::Labels, Group::System])?;
        Ok((Model { labels, system, ..Model::default() }, formulas))
    }

    /// Two lengths, then labels and system; the formula is left empty.
    pub fn model(&mut self) -> Result<Model, ReadError> {
        let [labels, system] = self.groups([Group::Labels, Group::System])?;
        Ok(Model { labels, system, ..Model::default() })
    }

    /// Two lengths, then action formulas and formula; or three, with regular formulas before the formula.
    pub fn formulas(&mut self) -> Result<Formulas, ReadError> {
        self.groups_and_formulas([]).map(|([], formulas)| formulas)
    }

    /// The words of a game; whether they are one is not looked at.
    pub fn game(&mut self) -> Result<Vec<u32>, ReadError> {
        self.bounded(GAME)?;
        let most = self.bytes.map_or(GAME, |bytes| bytes.div_ceil(4)).max(1) as usize;
        let mut words = self.words(2)?;
        if matches!(words[..], [first, second] if [first, second & 0xff_ffff] == HEADER) {
            return Err(FileFault::Text.into());
        }
        self.more_words(&mut words, most)?;
        match self.byte_follows()? {
            true => Err(FileFault::Endless { most: 4 * GAME }.into()),
            false => Ok(words),
        }
    }

    /// The bytes of a text; whether it is one is not looked at.
    pub fn text(&mut self) -> Result<Vec<u8>, ReadError> {
        if let Some(bytes) = self.bytes.filter(|&bytes| bytes > TEXT) {
            return Err(FileFault::TooLong { bytes, most: TEXT }.into());
        }
        let no_memory = |_| io::Error::from(io::ErrorKind::OutOfMemory);
        let mut text = Vec::new();
        text.try_reserve_exact(self.bytes.unwrap_or(0) as usize).map_err(no_memory)?;
        let mut bytes = [0; 1 << 14];
        loop {
            let got = fill(&mut self.from, &mut bytes)?;
            if (text.len() + got) as u64 > TEXT {
                return Err(FileFault::Endless { most: TEXT }.into());
            }
            text.try_reserve(got).map_err(no_memory)?;
            text.extend_from_slice(&bytes[..got]);
            if got < bytes.len() {
                return Ok(text);
            }
        }
    }

    /// The lengths at the front.
    fn lengths(&mut self, count: usize) -> Result<Vec<u32>, ReadError> {
        let lengths = self.words(count)?;
        if lengths.len() < count { Err(FileFault::NoLengths(lengths.len()).into()) } else { Ok(lengths) }
    }

    fn groups<const N: usize>(&mut self, groups: [Group; N]) -> Result<[Vec<u32>; N], ReadError> {
        let lengths = self.lengths(N)?;
        let promised: u64 = lengths.iter().map(|&length| length as u64).sum();
        self.matched(promised, &groups)?;
        let mut found = 0;
        let mut read = [const { Vec::new() }; N];
        for (i, group) in groups.into_iter().enumerate() {
            let words = self.group(group, lengths[i])?;
            found += words.len() as u64;
            if words.len() < lengths[i] as usize {
                return Err(FileFault::Lengths { promised, found }.into());
            }
            read[i] = words;
        }
        if self.byte_follows()? { Err(FileFault::More { promised }.into()) } else { Ok(read) }
    }

    /// Groups and, behind them, formulas with or without regular ones: with those there is a length more. A file tells
    /// by its size which it is, a stream by going on where it would end without. No more words are read than are legal.
    fn groups_and_formulas<const N: usize>(
        &mut self,
        front: [Group; N],
    ) -> Result<([Vec<u32>; N], Formulas), ReadError> {
        let mut lengths = self.lengths(N + 2)?;
        let mut words = self.words(1)?;
        let promised = Promised::by(&lengths, words.first());
        let known = self.known(&promised, &front)?;
        if known == Some(true) {
            lengths.append(&mut words);
        }
        self.legal(&front, &lengths, &mut words, known.is_some())?;
        if known.is_none() && self.goes_on(&mut words, promised.without as usize)? {
            lengths.push(words.remove(0));
            self.legal(&front, &lengths, &mut words, false)?;
        }
        let sum = lengths.iter().map(|&length| length as usize).sum();
        self.more_words(&mut words, sum)?;
        let found = (lengths.len() - N - 2 + words.len()) as u64;
        match words.len() != sum || self.byte_follows()? {
            true => Err(FileFault::Neither { promised, found: (words.len() < sum).then_some(found) }.into()),
            false => Ok(parted(&words, &lengths)),
        }
    }

    /// Whether there are regular formulas, by the size; nothing of a stream.
    fn known(&self, promised: &Promised, front: &[Group]) -> Result<Option<bool>, ReadError> {
        let Some(bytes) = self.bytes else { return Ok(None) };
        let found = (bytes / 4).saturating_sub(promised.lengths as u64);
        match promised.regular(found).filter(|_| bytes % 4 == 0) {
            Some(regular) => Ok(Some(regular)),
            None => {
                let groups = groups_of(front, true);
                self.bounded(groups.len() as u64 + groups.iter().map(|group| group.most() as u64).sum::<u64>())?;
                if bytes % 4 != 0 {
                    return Err(FileFault::BrokenWord(bytes as usize).into());
                }
                Err(FileFault::Neither { promised: *promised, found: Some(found) }.into())
            }
        }
    }

    /// Refuses a group that is longer than any legal one. In a stream it may be one or another and is not named; of a
    /// file `words` are what was read behind the lengths.
    fn legal(&mut self, front: &[Group], lengths: &[u32], words: &mut Vec<u32>, named: bool) -> Result<(), ReadError> {
        let groups = groups_of(front, lengths.len() > front.len() + 2);
        let Some(at) = (0..lengths.len()).find(|&at| lengths[at] > groups[at].most()) else { return Ok(()) };
        let (group, long) = (groups[at], lengths[at]);
        if !named {
            return Err(FileFault::LongLength { which: at, words: long, most: group.most() }.into());
        }
        let before: usize = lengths[..at].iter().map(|&length| length as usize).sum();
        self.more_words(words, before + 2)?;
        let sizes = [0, 1].map(|at| words.get(before + at).copied().unwrap_or(0));
        Err(FileFault::LongGroup { group, words: long, sizes }.into())
    }

    /// Whether there is a word more than so many; all of these are read.
    fn goes_on(&mut self, words: &mut Vec<u32>, count: usize) -> Result<bool, ReadError> {
        self.more_words(words, count + 1)?;
        Ok(words.len() > count)
    }

    /// Where the size is known: it is what the lengths promise. If not, it may be beyond what is ever legal.
    fn matched(&self, promised: u64, groups: &[Group]) -> Result<(), ReadError> {
        let lengths = groups.len() as u64;
        match self.bytes {
            Some(bytes) if bytes != 4 * (lengths + promised) => {
                self.bounded(lengths + groups.iter().map(|group| group.most() as u64).sum::<u64>())?;
                if bytes % 4 != 0 {
                    return Err(FileFault::BrokenWord(bytes as usize).into());
                }
                Err(FileFault::Lengths { promised, found: (bytes / 4).saturating_sub(lengths) }.into())
            }
            _ => Ok(()),
        }
    }

    fn bounded(&self, most_words: u64) -> Result<(), ReadError> {
        match self.bytes {
            Some(bytes) if bytes > 4 * most_words => Err(FileFault::TooLong { bytes, most: 4 * most_words }.into()),
            _ => Ok(()),
        }
    }

    /// One group, if it is not too long; fewer words if the source ends.
    fn group(&mut self, group: Group, words: u32) -> Result<Vec<u32>, ReadError> {
        if words > group.most() {
            let front = self.words(2)?;
            let sizes = [0, 1].map(|at| front.get(at).copied().unwrap_or(0));
            return Err(FileFault::LongGroup { group, words, sizes }.into());
        }
        self.words(words as usize)
    }

    /// At most so many words; fewer if the source ends.
    fn words(&mut self, most: usize) -> Result<Vec<u32>, ReadError> {
        let mut words = Vec::new();
        self.more_words(&mut words, most)?;
        Ok(words)
    }

    /// The same behind words that were read before; `most` counts them too.
    fn more_words(&mut self, words: &mut Vec<u32>, most: usize) -> Result<(), ReadError> {
        let lacking = most.saturating_sub(words.len());
        words.try_reserve_exact(lacking).map_err(|_| io::Error::from(io::ErrorKind::OutOfMemory))?;
        let mut bytes = [0; 1 << 14];
        loop {
            let wanted = (4 * most.saturating_sub(words.len())).min(bytes.len());
            let got = fill(&mut self.from, &mut bytes[..wanted])?;
            self.read += got;
            let (whole, rest) = bytes[..got].as_chunks::<4>();
            words.extend(whole.iter().map(|&word| u32::from_le_bytes(word)));
            if !rest.is_empty() {
                return Err(FileFault::BrokenWord(self.read).into());
            }
            if got < wanted || wanted == 0 {
                return Ok(());
            }
        }
    }

    fn byte_follows(&mut self) -> io::Result<bool> {
        Ok(fill(&mut self.from, &mut [0])? > 0)
    }
}

/// The groups of a file of formulas.
fn groups_of(front: &[Group], regular: bool) -> Vec<Group> {
    let regulars = regular.then_some(Group::Regulars);
    let behind = [Some(Group::Actions), regulars, Some(Group::Formula)];
    front.iter().copied().chain(behind.into_iter().flatten()).collect()
}

/// Fills the buffer as far as the source goes.
fn fill(from: &mut impl Read, buffer: &mut [u8]) -> io::Result<usize> {
    let mut filled = 0;
    while filled < buffer.len() {
        match from.read(&mut buffer[filled..]) {
            Ok(0) => break,
            Ok(got) => filled += got,
            Err(error) if error.kind() == io::ErrorKind::Interrupted => {}
            Err(error) => return Err(error),
        }
    }
    Ok(filled)
}

#[cfg(test)]
mod tests {
    use super::Source;
    use crate::regular::model_and_formulas;
    use crate::{FileFault, Formulas, Model, ReadError, bytes_of};

    fn file(bytes: &[u8]) -> Source<&[u8]> {
        Source { from: bytes, bytes: Some(bytes.len() as u64), read: 0 }
    }

    /// All words of up to five numbers below 4, and of six to eight below 3, as formulas.
    fn small() -> impl Iterator<Item = Vec<u32>> {
        let all = |length: u32, below: u32| {
            let digit = move |number: u32, place: u32| number / below.pow(place) % below;
            (0..below.pow(length)).map(move |number| (0..length).map(|place| digit(number, place)).collect())
        };
        (0..6).flat_map(move |length| all(length, 4)).chain((6..9).flat_map(move |length| all(length, 3)))
    }

    /// The number of words tells whether there are regular formulas, of a file and of a stream alike.
    #[test]
    fn with_and_without_regular_formulas() {
        let mut counts = [0; 3];
        for words in small() {
            let at = |place: usize| words.get(place).copied().unwrap_or(0) as usize;
            let without = words.len() >= 2 && words.len() == 2 + at(0) + at(1);
            let with = words.len() >= 3 && words.len() == 3 + at(0) + at(1) + at(2);
            let actions = |from: usize| words[from..][..at(0)].to_vec();
            let wanted = match (without, with) {
                (true, true) => panic!("both: {words:?}"),
                (true, false) => {
                    Some(Formulas { actions: actions(2), regulars: None, formula: words[2 + at(0)..].to_vec() })
                }
                (false, true) => {
                    let (regulars, formula) = words[3 + at(0)..].split_at(at(1));
                    Some(Formulas { actions: actions(3), regulars: Some(regulars.to_vec()), formula: formula.to_vec() })
                }
                (false, false) => None,
            };
            counts[if without {
                0
            } else if with {
                1
            } else {
                2
            }] += 1;
            let bytes = bytes_of(&words);
            assert_eq!(file(&bytes).formulas().ok(), wanted, "{words:?}");
            assert_eq!(Source::stream(&bytes[..]).formulas().ok(), wanted, "{words:?}");
        }
        assert!(counts.iter().all(|&count| count > 100), "{counts:?}");
    }

    /// The same of four or five lengths; `dot` has the words before it knows what they are.
    #[test]
    fn inputs_of_both_kinds() {
        let groups: [&[u32]; 5] = [&[1, 2], &[3], &[4, 5, 6], &[7], &[8, 9]];
        for chosen in [&[0, 1, 2, 4][..], &[0, 1, 2, 3, 4]] {
            let lengths = chosen.iter().map(|&group| groups[group].len() as u32);
            let words: Vec<u32> =
                lengths.chain(chosen.iter().flat_map(|&group| groups[group].iter().copied())).collect();
            let [labels, system, actions, regulars, formula] = groups.map(<[u32]>::to_vec);
            let regulars = (chosen.len() == 5).then_some(regulars);
            let wanted = (Model { labels, system, ..Model::default() }, Formulas { actions, regulars, formula });
            let bytes = bytes_of(&words);
            assert_eq!(file(&bytes).model_and_formulas().unwrap(), wanted);
            assert_eq!(Source::stream(&bytes[..]).model_and_formulas().unwrap(), wanted);
            assert_eq!(model_and_formulas(&words), Ok(wanted));
            for words in [&words[..words.len() - 1], &[&words[..], &[0]].concat()] {
                let bytes = bytes_of(words);
                let neither = |read: Result<(Model, Formulas), ReadError>| match read {
                    Err(ReadError::Fault(FileFault::Neither { promised, found })) => (promised, found),
                    other => panic!("{other:?}"),
                };
                let (promised, found) = neither(file(&bytes).model_and_formulas());
                assert_eq!((promised.lengths, found), (4, Some(words.len() as u64 - 4)));
                let streamed = neither(Source::stream(&bytes[..]).model_and_formulas());
                assert_eq!(streamed, (promised, found.filter(|_| words.len() < 5 + promised.with.unwrap() as usize)));
                assert_eq!(model_and_formulas(words), Err(FileFault::Neither { promised, found }));
            }
        }
    }
}
