//! A chain that opens, and the questions on it.

use crate::{
    Error, Id, Position, Refused,
    chain::{self, Member},
    ffi,
    file::{self, Commit, File},
    refusal::{self, Place, Subject},
    shapes::{Part, Record, Refuses, Told},
};
use std::{
    ops::Range,
    path::{Path, PathBuf},
    sync::Arc,
};

/// A complete commit graph: one file, or the files of a chain. Its bytes are its own and do not change.
#[derive(Clone, Debug)]
pub struct Graph {
    data: Arc<Vec<u8>>,
    span: Range<usize>,
    list: Vec<u8>,
    commits: u32,
    pub(crate) entries: Vec<Entry>,
}

/// One file of the graph: where it lies in the bytes, its first position, and its record.
#[derive(Clone, Debug)]
pub(crate) struct Entry {
    pub path: PathBuf,
    pub at: Range<usize>,
    pub first: u32,
    pub record: Record,
}

/// The id that a part holds.
pub(crate) fn stored(bytes: &[u8], part: Part) -> Id {
    bytes.get(part.at..part.at + part.size).and_then(Id::from_bytes).expect("a part that the proved code hands out is an id in its bytes")
}

impl Graph {
    /// The graph at a path, as [`crate::at`].
    pub fn at(path: &Path) -> Result<Graph, Error> {
        crate::at(path)
    }

    pub(crate) fn open(data: &Arc<Vec<u8>>, span: Range<usize>, members: &[Member]) -> Result<Graph, Error> {
        let list = chain::list(members);
        let opened = ffi::open((&data[span.clone()], &list)).answer().map_err(|told| spoken(told, members))?;
        let entries = members.iter().map(|m| entry(data, m, span.start)).collect();
        let mut graph = Graph { data: data.clone(), span, list, commits: opened.commits, entries };
        graph.place();
        Ok(graph)
    }

    /// Puts down where each file's positions begin, as the proved code locates them.
    fn place(&mut self) {
        let mut next = 0;
        while next < self.commits {
            let spot = ffi::locate(self.lent(), next).answer().expect("a position below the commits is located");
            let entry = &mut self.entries[spot.index as usize];
            entry.first = next - spot.pos;
            next = entry.first + entry.record.commits;
        }
        for k in 1..self.entries.len() {
            if self.entries[k].record.commits == 0 {
                self.entries[k].first = self.entries[k - 1].first + self.entries[k - 1].record.commits;
            }
        }
    }

    pub(crate) fn lent(&self) -> ffi::Lent<'_> {
        (&self.data[self.span.clone()], &self.list)
    }

    /// The bytes of one of the files.
    pub(crate) fn bytes(&self, index: usize) -> &[u8] {
        &self.lent().0[self.entries[index].at.clone()]
    }

    /// A refusal with the file and the commit that it is about.
    pub(crate) fn refused(&self, told: Told) -> Error {
        let mut refused = Refused::new(told);
        let Some(meaning) = refusal::meaning(told.number) else { return Error::Refused(refused) };
        let entry = self.entries.get(told.file as usize).filter(|_| meaning.subject == Subject::File);
        refused.path = entry.map(|e| e.path.clone());
        if let (Some(entry), Place::Commit) = (entry, meaning.place) {
            let pos = entry.first + told.place as u32;
            refused.commit = ffi::id(self.lent(), pos).answer().ok().map(|part| (Position(pos), stored(self.lent().0, part)));
        }
        Error::Refused(refused)
    }

    /// The file that has a position, and the position in it.
    fn spot(&self, pos: Position) -> Option<(usize, file::Position)> {
        let index = self.entries.partition_point(|e| e.first <= pos.0).checked_sub(1).filter(|_| pos.0 < self.commits)?;
        Some((index, file::Position(pos.0 - self.entries[index].first)))
    }

    /// The commit at a position, or refusal 40 where there is none.
    pub fn try_commit_at(&self, pos: Position) -> Result<Commit<'_>, Error> {
        match self.spot(pos) {
            Some((index, at)) => Commit::new(self, index, at),
            None => {
                Err(ffi::commit(self.lent(), pos.0).answer().err().map_or_else(|| Error::Stopped("position".into()), |t| self.refused(t)))
            }
        }
    }

    /// The id at a position, or refusal 40 where there is none.
    pub fn try_id_at(&self, pos: Position) -> Result<Id, Error> {
        let (bytes, part) = match self.spot(pos) {
            Some((index, at)) => (self.bytes(index), ffi::file_id(self.bytes(index), self.entries[index].record, at.0)),
            None => (self.lent().0, ffi::id(self.lent(), pos.0)),
        };
        part.answer().map(|part| stored(bytes, part)).map_err(|told| self.refused(told))
    }

    /// The commit at a position.
    ///
    /// # Panics
    /// If there is none; [`Graph::try_commit_at`] refuses instead.
    pub fn commit_at(&self, pos: Position) -> Commit<'_> {
        self.try_commit_at(pos).unwrap_or_else(|e| panic!("position {pos}: {e}"))
    }

    /// The id at a position.
    ///
    /// # Panics
    /// If there is none; [`Graph::try_id_at`] refuses instead.
    pub fn id_at(&self, pos: Position) -> Id {
        self.try_id_at(pos).unwrap_or_else(|e| panic!("position {pos}: {e}"))
    }

    /// The position of an id: the lowest that stores it, in a graph whose ids are in order.
    pub fn lookup(&self, id: impl AsRef<Id>) -> Option<Position> {
        let found = ffi::find(self.lent(), id.as_ref().as_bytes());
        (found.found == 1).then_some(Position(found.pos))
    }

    pub fn commit_by_id(&self, id: impl AsRef<Id>) -> Option<Commit<'_>> {
        self.try_commit_at(self.lookup(id)?).ok()
    }

    /// The commits, by position.
    pub fn iter_commits(&self) -> impl Iterator<Item = Commit<'_>> {
        self.files().flat_map(File::iter_commits)
    }

    /// The ids, by position.
    pub fn iter_ids(&self) -> impl Iterator<Item = Id> + '_ {
        self.files().flat_map(File::iter_ids)
    }

    pub fn num_commits(&self) -> u32 {
        self.commits
    }

    /// The files, oldest first.
    pub fn files(&self) -> impl ExactSizeIterator<Item = File<'_>> {
        (0..self.entries.len()).map(move |index| File { graph: self, index })
    }

    /// The file of this index.
    pub fn file(&self, index: usize) -> Option<File<'_>> {
        (index < self.entries.len()).then_some(File { graph: self, index })
    }
}

fn entry(data: &[u8], member: &Member, start: usize) -> Entry {
    let record = ffi::file_open(&data[member.at.clone()]).record;
    Entry { path: member.path.clone(), at: member.at.start - start..member.at.end - start, first: 0, record }
}

/// A refusal to open, with the file that it is about.
fn spoken(told: Told, members: &[Member]) -> Error {
    let about = refusal::meaning(told.number).is_some_and(|m| m.subject == Subject::File) || members.len() == 1;
    let path = members.get(told.file as usize).filter(|_| about).map(|m| m.path.clone());
    Error::Refused(Refused { path, ..Refused::new(told) })
}
