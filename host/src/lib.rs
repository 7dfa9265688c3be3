//! git's commit-graph files by the proved port of gix-commitgraph, in that crate's shape.
//!
//! Every fact comes from a proved export of the static library. This crate adds paths, reading of files and words; it is not proved itself.
#![deny(unsafe_code)]

mod chain;
mod error;
#[allow(unsafe_code)]
mod ffi;
pub mod file;
mod graph;
mod id;
mod paths;
mod read;
pub mod refusal;
mod shapes;
pub mod verify;

pub use chain::{Chain, Member};
pub use error::{Error, Refused, Unread, plain};
pub use file::{Commit, File};
pub use graph::Graph;
pub use id::{Id, NotHex};
pub use verify::{Accepted, Outcome, verify};

use std::{fmt, path::Path};

/// The generation that stands for a history without end.
pub const GENERATION_NUMBER_INFINITY: u32 = 0xffff_ffff;
/// The largest generation: a longer history has it too.
pub const GENERATION_NUMBER_MAX: u32 = 0x3fff_ffff;
/// The most commits that positions can tell apart.
pub const MAX_COMMITS: u32 = 0x6fff_ffff;

/// A position in a graph, not to be mixed with one in a file.
#[derive(Clone, Copy, Debug, Eq, Hash, Ord, PartialEq, PartialOrd)]
pub struct Position(pub u32);

impl fmt::Display for Position {
    fn fmt(&self, f: &mut fmt::Formatter<'_>) -> fmt::Result {
        self.0.fmt(f)
    }
}

/// Opens the graph at a path: a repository, a git folder, `objects/info`, a `commit-graph` file, a `commit-graphs` folder or a file of it.
pub fn at(path: impl AsRef<Path>) -> Result<Graph, Error> {
    Chain::read(path)?.graph()
}

/// The SHA-1 of some bytes.
pub fn sha1(bytes: &[u8]) -> Id {
    Id::new(ffi::sha1(bytes).bytes)
}
