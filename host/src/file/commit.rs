//! A commit of a graph, its parents, and where in the file each of them was read.

use super::Position as Local;
use crate::{
    Error, Graph, Id, Position, ffi,
    graph::stored,
    shapes::{self, Record, Refuses},
};
use std::{fmt, ops::Range};

/// A commit as it is stored.
#[derive(Clone, Copy)]
pub struct Commit<'a> {
    graph: &'a Graph,
    index: usize,
    pos: Local,
    row: shapes::Commit,
}

/// A parent that was read, and its four bytes, as places in the commit's file.
#[derive(Clone, Debug, Eq, PartialEq)]
pub struct Parent {
    pub position: Position,
    pub at: Range<usize>,
}

/// The phase before the first parent.
const FIRST: u32 = 0;

impl<'a> Commit<'a> {
    pub(crate) fn new(graph: &'a Graph, index: usize, pos: Local) -> Result<Commit<'a>, Error> {
        let row = ffi::file_commit(graph.bytes(index), graph.entries[index].record, pos.0);
        row.answer().map(|row| Commit { graph, index, pos, row }).map_err(|told| graph.refused(told))
    }

    fn asked(&self) -> (&'a [u8], Record) {
        (self.graph.bytes(self.index), self.graph.entries[self.index].record)
    }

    fn part(&self, ask: fn(&[u8], Record, u32) -> shapes::Part) -> (Range<usize>, Id) {
        let (bytes, record) = self.asked();
        let part = ask(bytes, record, self.pos.0);
        (part.at..part.at + part.size, stored(bytes, part))
    }

    pub fn id(&self) -> Id {
        self.part(ffi::file_id).1
    }

    pub fn root_tree_id(&self) -> Id {
        self.part(ffi::file_tree).1
    }

    /// Where the id lies in its file.
    pub fn id_place(&self) -> Range<usize> {
        self.part(ffi::file_id).0
    }

    /// Where the tree lies in its file.
    pub fn tree_place(&self) -> Range<usize> {
        self.part(ffi::file_tree).0
    }

    /// Where the generation and the time lie in its file.
    pub fn date_place(&self) -> Range<usize> {
        let (bytes, record) = self.asked();
        let part = ffi::file_date(bytes, record, self.pos.0);
        part.at..part.at + part.size
    }

    /// What is wrong with this commit by itself: its id, its fan bucket, its tree or its walk; 64 to 67, then 50 to 54.
    pub fn trouble(&self) -> Option<Error> {
        let (bytes, record) = self.asked();
        let entry = ffi::file_entry(bytes, record, self.pos.0).answer().err();
        let told = entry.or_else(|| ffi::file_count(bytes, record, self.pos.0).answer().err())?;
        Some(self.graph.refused(shapes::Told { file: self.index as u32, ..told }))
    }

    pub fn generation(&self) -> u32 {
        self.row.generation
    }

    /// Seconds since 1970-01-01 00:00:00 UTC.
    pub fn committer_timestamp(&self) -> u64 {
        self.row.time
    }

    /// The position in its file.
    pub fn position(&self) -> Local {
        self.pos
    }

    /// The position in the graph.
    pub fn graph_position(&self) -> Position {
        Position(self.graph.entries[self.index].first + self.pos.0)
    }

    /// Which file of the graph has it.
    pub fn file(&self) -> super::File<'a> {
        super::File { graph: self.graph, index: self.index }
    }

    pub fn iter_parents(self) -> Parents<'a> {
        Parents { walk: Walk { commit: self, phase: FIRST, edge: 0 } }
    }

    /// The parents with the bytes that they were read from.
    pub fn iter_places(self) -> impl Iterator<Item = Result<Parent, Error>> + 'a {
        let mut walk = Walk { commit: self, phase: FIRST, edge: 0 };
        std::iter::from_fn(move || {
            let from = (walk.phase, walk.edge);
            walk.step().map(|step| step.map(|position| Parent { position, at: self.word(from) }))
        })
    }

    /// The four bytes that the step from this phase reads its parent from.
    fn word(&self, from: (u32, usize)) -> Range<usize> {
        let (bytes, record) = self.asked();
        let part = ffi::file_word(bytes, record, self.pos.0, from);
        part.at..part.at + part.size
    }

    pub fn parent1(&self) -> Result<Option<Position>, Error> {
        self.iter_parents().next().transpose()
    }
}

/// The parents of a commit, in their order. It ends after a refusal.
pub struct Parents<'a> {
    walk: Walk<'a>,
}

impl Iterator for Parents<'_> {
    type Item = Result<Position, Error>;

    fn next(&mut self) -> Option<Self::Item> {
        self.walk.step()
    }
}

struct Walk<'a> {
    commit: Commit<'a>,
    phase: u32,
    edge: usize,
}

impl Walk<'_> {
    /// One step of the proved walk. A refusal is asked again of the chain, so that it has its file and place.
    fn step(&mut self) -> Option<Result<Position, Error>> {
        let Commit { graph, pos, .. } = self.commit;
        let (bytes, record) = self.commit.asked();
        let from = (self.phase, self.edge);
        let step = ffi::file_step(bytes, record, pos.0, from);
        (self.phase, self.edge) = (step.phase, step.edge);
        match step.kind {
            0 => Some(Ok(Position(step.parent))),
            1 => Some(Err(graph.refused(ffi::step(graph.lent(), self.commit.graph_position().0, from).told()))),
            _ => None,
        }
    }
}

impl fmt::Debug for Commit<'_> {
    fn fmt(&self, f: &mut fmt::Formatter<'_>) -> fmt::Result {
        write!(f, "Commit {{ id: {}, position: {}, generation: {} }}", self.id(), self.graph_position(), self.generation())
    }
}

impl PartialEq for Commit<'_> {
    fn eq(&self, other: &Self) -> bool {
        std::ptr::eq(self.graph, other.graph) && self.index == other.index && self.pos == other.pos
    }
}

impl Eq for Commit<'_> {}
