//! One file of a graph, and the questions on it.

pub mod commit;

pub use commit::{Commit, Parent};

use crate::{Error, Graph, Id, ffi, graph::stored, shapes::Refuses};
use std::{fmt, ops::Range, path::Path};

/// The position of a commit in its file, not to be mixed with one in the graph.
#[derive(Clone, Copy, Debug, Eq, Hash, Ord, PartialEq, PartialOrd)]
pub struct Position(pub u32);

impl fmt::Display for Position {
    fn fmt(&self, f: &mut fmt::Formatter<'_>) -> fmt::Result {
        self.0.fmt(f)
    }
}

/// One file of a graph.
#[derive(Clone, Copy, Debug)]
pub struct File<'a> {
    pub(crate) graph: &'a Graph,
    pub(crate) index: usize,
}

impl<'a> File<'a> {
    fn bytes(self) -> &'a [u8] {
        self.graph.bytes(self.index)
    }

    fn record(self) -> crate::shapes::Record {
        self.graph.entries[self.index].record
    }

    pub fn path(self) -> &'a Path {
        &self.graph.entries[self.index].path
    }

    /// Which file of the chain it is, from 0 on.
    pub fn index(self) -> usize {
        self.index
    }

    /// The graph position of its first commit.
    pub fn first(self) -> crate::Position {
        crate::Position(self.graph.entries[self.index].first)
    }

    pub fn num_commits(self) -> u32 {
        self.record().commits
    }

    pub fn base_graph_count(self) -> u32 {
        self.record().bases
    }

    /// The ids of the files that it stands on.
    pub fn iter_base_graph_ids(self) -> impl Iterator<Item = Id> + 'a {
        let (bytes, record) = (self.bytes(), self.record());
        (0..record.bases).filter_map(move |j| ffi::file_base(bytes, record, j).answer().ok().map(|part| stored(bytes, part)))
    }

    /// Where its trailer lies in it, and the digest there.
    pub fn trailer(self) -> (Range<usize>, Id) {
        let part = ffi::file_checksum(self.bytes(), self.record());
        (part.at..part.at + part.size, stored(self.bytes(), part))
    }

    /// The digest in its trailer.
    pub fn checksum(self) -> Id {
        self.trailer().1
    }

    /// Whether the trailer is the digest of the bytes before it; refusal 62 if not.
    pub fn verify_checksum(self) -> Result<Id, Error> {
        match ffi::file_verify_checksum(self.bytes(), self.record()).answer() {
            Ok(_) => Ok(self.checksum()),
            Err(told) => Err(self.graph.refused(crate::shapes::Told { file: self.index as u32, ..told })),
        }
    }

    pub fn try_commit_at(self, pos: Position) -> Result<Commit<'a>, Error> {
        Commit::new(self.graph, self.index, pos)
    }

    /// The position of an id in this file.
    pub fn lookup(self, id: impl AsRef<Id>) -> Option<Position> {
        let found = ffi::file_lookup(self.bytes(), self.record(), id.as_ref().as_bytes());
        (found.found == 1).then_some(Position(found.pos))
    }

    pub fn iter_ids(self) -> impl Iterator<Item = Id> + 'a {
        let (bytes, record) = (self.bytes(), self.record());
        (0..record.commits).filter_map(move |i| ffi::file_id(bytes, record, i).answer().ok().map(|part| stored(bytes, part)))
    }

    pub fn iter_commits(self) -> impl Iterator<Item = Commit<'a>> + 'a {
        (0..self.num_commits()).filter_map(move |i| self.try_commit_at(Position(i)).ok())
    }
}
