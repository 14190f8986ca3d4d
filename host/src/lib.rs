//! Parity games from models and formulas: a safe wrapper of the proved library. What the comparisons and the benchmark
//! need beside it is built with the feature `testing` only.
//!
//! A [`Model`] holds the four groups of words. [`Model::build`] lends the library slices of the right lengths and gives
//! the game's words with an [`Answer`]; [`restrict`] does the same for the reachable part of a game, [`write_pgsolver`]
//! and [`read_pgsolver`] for games as PGSolver text. [`Formulas`] are a formula's file, with regular formulas or
//! without; [`Formulas::expand`] gives the formula that a run takes, and [`Model::take`] puts it into a model. A
//! [`Game`] has a game's words by vertex, a [`Layout`] says where they stand, [`Slices`] lends the same slices to many
//! runs, a [`Source`] reads files within bounds. [`library`] has the calls themselves, on slices of the caller's;
//! [`command`] is the program `hingrezh`.
mod answer;
#[cfg(feature = "testing")]
pub mod check;
pub mod command;
mod explain;
mod files;
mod game;
pub mod library;
mod lines;
mod model;
mod nodes;
mod pgsolver;
#[cfg(feature = "testing")]
pub mod plain;
mod regular;
mod sizes;
mod text_faults;

pub use answer::{Answer, Party, Refusal};
pub use files::{ReadError, Source};
pub use game::{Game, Layout, Player, game_words};
pub use lines::{counted_lines, game_lines, map_line};
pub use model::{Built, FileFault, Group, Model, NoMemory, Restricted, Room, Slices};
pub use model::{bytes_of, restrict, try_restrict, words_of};
pub use pgsolver::{Written, read_pgsolver, try_read_pgsolver, try_write_pgsolver, write_pgsolver};
pub use regular::{Formulas, Promised};
