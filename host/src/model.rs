//! Models and games as words, from files and to the library.
use crate::game::game_words;
use crate::pgsolver::{bytes_written, most_bytes};
use crate::{Answer, Game, Promised, Refusal, library};
use std::alloc::{Layout, alloc_zeroed};
use std::fmt;

/// The four groups of words that a run takes.
#[derive(Clone, Debug, Default, PartialEq, Eq)]
pub struct Model {
    pub labels: Vec<u32>,
    pub system: Vec<u32>,
    pub actions: Vec<u32>,
    pub formula: Vec<u32>,
}

/// How many vertices and edges a game may have.
#[derive(Clone, Copy, Debug, PartialEq, Eq)]
pub struct Room {
    pub vertices: u32,
    pub edges: u32,
}

impl Room {
    /// The largest room that the library accepts.
    pub const MOST: Room = Room { vertices: 1 << 20, edges: 1 << 22 };

    fn in_range(&self) -> bool {
        (1..=Room::MOST.vertices).contains(&self.vertices) && (1..=Room::MOST.edges).contains(&self.edges)
    }

    /// The lengths of the game and work slices, 0 for a room that is refused: it needs no memory.
    pub(crate) fn lengths(&self) -> (usize, usize) {
        let (v, e) = (self.vertices as usize, self.edges as usize);
        if self.in_range() { (game_words(v, e), 8 * v + 2 * e) } else { (0, 0) }
    }
}

/// A game, without words past its end; empty after a refusal.
#[derive(Clone, Debug, PartialEq, Eq)]
pub struct Built {
    pub answer: Answer,
    pub game: Vec<u32>,
}

/// The same with the map: for each old vertex the new one, 4,294,967,295 if it is not reached.
#[derive(Clone, Debug, PartialEq, Eq)]
pub struct Restricted {
    pub answer: Answer,
    pub game: Vec<u32>,
    pub map: Vec<u32>,
}

impl Built {
    /// The game by vertex, if there is one.
    pub fn view(&self) -> Option<Game<'_>> {
        Game::of_words(&self.game).ok()
    }
}

impl Restricted {
    /// The game by vertex, if there is one.
    pub fn view(&self) -> Option<Game<'_>> {
        Game::of_words(&self.game).ok()
    }
}

/// The slices for one room, lent to any number of runs one after another.
pub struct Slices {
    room: Room,
    game: Vec<u32>,
    work: Vec<u32>,
    /// How many words the last run's game has.
    words: usize,
}

impl Slices {
    pub fn new(room: Room) -> Result<Slices, NoMemory> {
        let (game, work) = room.lengths();
        let refused = |_| NoMemory { bytes: 4 * (game as u64 + work as u64) };
        Ok(Slices { room, game: zeroed(game).map_err(refused)?, work: zeroed(work).map_err(refused)?, words: 0 })
    }

    /// Builds the game with the proved library. The game's words are without words past its end, and empty after a
    /// refusal.
    pub fn build(&mut self, model: &Model, limit: u32) -> (Answer, &[u32]) {
        let Model { labels, system, actions, formula } = model;
        let Room { vertices, edges } = self.room;
        let Slices { game, work, .. } = self;
        let mut answer = [0; 4];
        library::translate(labels, system, actions, formula, vertices, edges, limit, game, work, &mut answer);
        let answer = Answer::of_words(answer);
        self.words = answer.game_words().unwrap_or(0);
        (answer, self.game())
    }

    /// The last run's game, without words past its end; empty after a refusal, and before the first run.
    pub fn game(&self) -> &[u32] {
        &self.game[..self.words]
    }

    /// The last run's game as PGSolver text, in the work slice: it is free between runs, and any game of the room has
    /// a shorter text. So a night that has its slices lacks no memory later.
    pub fn pgsolver(&mut self) -> Result<&[u8], Refusal> {
        let Slices { game, work, words, .. } = self;
        let game = &game[..*words];
        // SAFETY: every byte of a word is a byte, and any bytes make words.
        let (_, bytes, _) = unsafe { work.align_to_mut::<u8>() };
        let most = most_bytes(game).min(bytes.len());
        let answer = library::write_pgsolver(game, &mut bytes[..most]);
        match answer {
            Answer::Refused(refusal) => Err(refusal),
            _ => Ok(&bytes[..bytes_written(&answer)]),
        }
    }

    fn into_game(mut self) -> Vec<u32> {
        self.game.truncate(self.words);
        self.game
    }
}

impl Model {
    /// Builds the game with the proved library. It panics where there is no memory for the room; [`Slices::new`]
    /// says so instead.
    pub fn build(&self, room: Room, limit: u32) -> Built {
        self.try_build(room, limit).unwrap_or_else(|error| panic!("{error}"))
    }

    pub fn try_build(&self, room: Room, limit: u32) -> Result<Built, NoMemory> {
        let mut slices = Slices::new(room)?;
        let (answer, _) = slices.build(self, limit);
        Ok(Built { answer, game: slices.into_game() })
    }

    /// The refusal that the words bring about whatever the room and the step limit are.
    pub fn fault(&self) -> Option<Refusal> {
        match self.build(Room { vertices: 1, edges: 1 }, 0).answer {
            Answer::Refused(refusal) => Some(refusal),
            _ => None,
        }
    }

    pub fn parts(&self) -> [&Vec<u32>; 4] {
        [&self.labels, &self.system, &self.actions, &self.formula]
    }

    /// How many words there are in all.
    pub fn size(&self) -> usize {
        self.parts().iter().map(|part| part.len()).sum()
    }

    /// As the thin program reads it: four lengths, then the four groups. [`crate::Source`] reads files with regular
    /// formulas, too.
    pub fn to_bytes(&self) -> Vec<u8> {
        bytes_of(&behind_lengths(&self.parts()))
    }

    pub fn from_bytes(bytes: &[u8]) -> Result<Model, FileFault> {
        Model::from_words(&words_of(bytes)?)
    }

    pub fn from_words(words: &[u32]) -> Result<Model, FileFault> {
        let (lengths, mut rest) = words.split_at_checked(4).ok_or(FileFault::NoLengths(words.len()))?;
        let promised: u64 = lengths.iter().map(|&length| length as u64).sum();
        if promised != rest.len() as u64 {
            return Err(FileFault::Lengths { promised, found: rest.len() as u64 });
        }
        let mut part = |i: usize| {
            let (front, back) = rest.split_at(lengths[i] as usize);
            rest = back;
            front.to_vec()
        };
        Ok(Model { labels: part(0), system: part(1), actions: part(2), formula: part(3) })
    }
}

/// Restricts a game to what its initial vertex reaches, with the proved library; vertices keep their states and items,
/// edges their counts. It panics where there is no memory for the result.
pub fn restrict(game: &[u32]) -> Restricted {
    try_restrict(game).unwrap_or_else(|error| panic!("{error}"))
}

pub fn try_restrict(game: &[u32]) -> Result<Restricted, NoMemory> {
    // A game that is no game is refused before the lent lengths are looked at.
    let vertices = game.first().map_or(0, |&n| n as usize).min(game.len());
    let refused = |_| NoMemory { bytes: 4 * (game.len() as u64 + 2 * vertices as u64) };
    let slice = |length: usize| zeroed(length).map_err(refused);
    let (mut out, mut map, mut work) = (slice(game.len())?, slice(vertices)?, slice(vertices)?);
    let mut answer = [0; 4];
    library::compute_reachable(game, &mut out, &mut map, &mut work, &mut answer);
    let answer = Answer::of_words(answer);
    let words = answer.game_words();
    out.truncate(words.unwrap_or(0));
    map.truncate(if words.is_some() { vertices } else { 0 });
    Ok(Restricted { answer, game: out, map })
}

/// There is less memory than the slices need.
#[derive(Clone, Copy, Debug, PartialEq, Eq)]
pub struct NoMemory {
    pub bytes: u64,
}

impl fmt::Display for NoMemory {
    fn fmt(&self, f: &mut fmt::Formatter) -> fmt::Result {
        write!(f, "there is no memory for slices of {} bytes", self.bytes)
    }
}

impl std::error::Error for NoMemory {}

/// A vector of zeros, or word that there is no memory for it. The pages of a large one are untouched until they are
/// written, as those of `vec!` are: a small game in the largest room needs little memory.
pub(crate) fn zeroed(length: usize) -> Result<Vec<u32>, NoMemory> {
    let layout = Layout::array::<u32>(length).map_err(|_| NoMemory { bytes: u64::MAX })?;
    if layout.size() == 0 {
        return Ok(Vec::new());
    }
    // SAFETY: the layout is that of `length` words and not empty.
    let start = unsafe { alloc_zeroed(layout) }.cast::<u32>();
    if start.is_null() {
        return Err(NoMemory { bytes: layout.size() as u64 });
    }
    // SAFETY: the memory comes from the global allocator with the layout of a vector of this capacity, and zeros are
    // words.
    Ok(unsafe { Vec::from_raw_parts(start, length, length) })
}

/// Why a file holds no words, or no model.
#[derive(Clone, Copy, Debug, PartialEq, Eq)]
pub enum FileFault {
    BrokenWord(usize),
    NoLengths(usize),
    Lengths {
        promised: u64,
        found: u64,
    },
    /// More bytes than the lengths promise, in a stream whose size is not known.
    More {
        promised: u64,
    },
    /// In a file of formulas: neither the words that are promised without regular formulas nor those with them. Where
    /// more than either follow in a stream, it is not known how many.
    Neither {
        promised: Promised,
        found: Option<u64>,
    },
    /// More bytes than any legal file has.
    TooLong {
        bytes: u64,
        most: u64,
    },
    /// The same of a stream, whose size is not known.
    Endless {
        most: u64,
    },
    /// PGSolver text in place of a game's words.
    Text,
    /// More words in a group than are ever legal; its sizes, as its first two words say them.
    LongGroup {
        group: Group,
        words: u32,
        sizes: [u32; 2],
    },
    /// The same in a stream, where it is not known yet whether there are regular formulas: by the length's number.
    LongLength {
        which: usize,
        words: u32,
        most: u32,
    },
}

/// The groups of words that files hold.
#[derive(Clone, Copy, Debug, PartialEq, Eq)]
pub enum Group {
    Labels,
    System,
    Actions,
    Regulars,
    Formula,
}

impl Group {
    /// How many words are ever legal.
    pub fn most(&self) -> u32 {
        match self {
            Group::Labels => 2 + 2 * 16_384,
            Group::System => 3 + 65_535 + 2 * 262_144,
            Group::Actions | Group::Regulars | Group::Formula => 1 + 2 * 1_024,
        }
    }

    fn tell(&self, words: u32, [first, second]: [u32; 2]) -> String {
        let most = self.most();
        let told = |name: &str, sizes: String, legal: &str| {
            format!("{name} {words} words ({sizes}), and at most {most} are legal ({legal})")
        };
        let nodes = format!("{first} nodes");
        match self {
            Group::Labels => told("the labels have", format!("{second} actions"), "16384 actions"),
            Group::System => {
                let sizes = format!("{first} states, {second} transitions");
                told("the system has", sizes, "65535 states, 262144 transitions")
            }
            Group::Actions => told("the action formulas have", nodes, "1024 nodes"),
            Group::Regulars => told("the regular formulas have", nodes, "1024 nodes"),
            Group::Formula => told("the formula has", nodes, "1024 nodes"),
        }
    }
}

impl fmt::Display for FileFault {
    fn fmt(&self, f: &mut fmt::Formatter) -> fmt::Result {
        match self {
            FileFault::BrokenWord(bytes) => write!(f, "{bytes} bytes are no whole number of 32-bit words"),
            FileFault::NoLengths(words) => write!(f, "there are {words} words, fewer than the lengths at the front"),
            FileFault::Lengths { promised, found } => {
                write!(f, "the lengths promise {promised} words, and {found} follow")
            }
            FileFault::More { promised } => write!(f, "the lengths promise {promised} words, and more follow"),
            FileFault::Neither { promised, found } => f.write_str(&promised.tell(*found)),
            FileFault::TooLong { bytes, most } => write!(f, "{bytes} bytes, and the largest legal file has {most}"),
            FileFault::Endless { most } => write!(f, "more bytes than the {most} of the largest legal file"),
            FileFault::Text => write!(f, "this is PGSolver text; `hingrezh read` makes a game's words of it"),
            FileFault::LongGroup { group, words, sizes } => f.write_str(&group.tell(*words, *sizes)),
            FileFault::LongLength { which, words, most } => {
                let length = ["first", "second", "third", "fourth"].get(*which).unwrap_or(&"fifth");
                write!(f, "the {length} length is {words}, and at most {most} are legal there")
            }
        }
    }
}

impl std::error::Error for FileFault {}

/// The lengths of the groups, then the groups.
pub(crate) fn behind_lengths(groups: &[&Vec<u32>]) -> Vec<u32> {
    let lengths = groups.iter().map(|group| group.len() as u32);
    lengths.chain(groups.iter().flat_map(|group| group.iter().copied())).collect()
}

/// Little-endian words.
pub fn words_of(bytes: &[u8]) -> Result<Vec<u32>, FileFault> {
    let (words, rest) = bytes.as_chunks::<4>();
    if rest.is_empty() {
        Ok(words.iter().map(|&word| u32::from_le_bytes(word)).collect())
    } else {
        Err(FileFault::BrokenWord(bytes.len()))
    }
}

pub fn bytes_of(words: &[u32]) -> Vec<u8> {
    words.iter().flat_map(|word| word.to_le_bytes()).collect()
}
