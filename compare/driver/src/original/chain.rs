//! A chain, as the crate's graph of its files.

use super::{Said, Stop, file::Original, row};
use crate::{
    answers::{Located, Row},
    caught::caught,
};
use gix_commitgraph::{Graph, Position, file::Commit};
use gix_hash::{ObjectId, oid};

/// A graph, and where each file lies: in memory, and in the chain.
pub struct Chain {
    pub graph: Graph,
    pub files: Vec<Place>,
}

#[derive(Clone, Copy, Debug)]
pub struct Place {
    memory: usize,
    pub start: usize,
    pub size: usize,
    pub commits: u32,
}

impl Chain {
    pub fn new(files: Vec<Original>) -> Said<Chain> {
        let mut start = 0;
        let mut places = Vec::new();
        for file in &files {
            places.push(Place { memory: file.memory(), start, size: file.size, commits: file.commits() });
            start += file.size;
        }
        let files = files.into_iter().map(|file| file.file).collect();
        let graph = caught(|| Graph::new(files))?.map_err(|error| Stop::by(&[error.to_string()]))?;
        Ok(Chain { graph, files: places })
    }

    /// Which file a lent id lies in, and the place in the chain.
    fn place(&self, id: &oid) -> (usize, usize) {
        let at = id.as_bytes().as_ptr().addr();
        let inside = |p: &Place| (p.memory..p.memory + p.size).contains(&at);
        let index = self.files.iter().position(inside).expect("an id that lies in a file");
        (index, at - self.files[index].memory + self.files[index].start)
    }

    pub fn commits(&self) -> u32 {
        self.graph.num_commits()
    }

    pub fn at(&self, pos: u32) -> Said<Commit<'_>> {
        Ok(caught(|| self.graph.commit_at(Position(pos)))?)
    }

    pub fn id(&self, pos: u32) -> Said<usize> {
        Ok(caught(|| self.place(self.graph.id_at(Position(pos))).1)?)
    }

    pub fn tree(&self, pos: u32) -> Said<usize> {
        Ok(caught(|| self.place(self.graph.commit_at(Position(pos)).root_tree_id()).1)?)
    }

    pub fn commit(&self, pos: u32) -> Said<Row> {
        self.at(pos).map(row)
    }

    /// The file of a position is told by where its id lies, the position in it by the commit.
    pub fn located(&self, pos: u32) -> Said<Located> {
        let commit = self.at(pos)?;
        let (index, _) = self.place(commit.id());
        let Place { start, size, .. } = self.files[index];
        Ok(Located { start, size, index: index as u32, pos: commit.position().0 })
    }

    /// The position of an id; and the id's commit, which must be that at the position.
    pub fn find(&self, id: &[u8; 20]) -> Said<Option<u32>> {
        let id = ObjectId::Sha1(*id);
        let found = caught(|| self.graph.lookup(id))?.map(|pos| pos.0);
        let commit = caught(|| self.graph.commit_by_id(id))?;
        assert!(commit == found.map(|pos| self.graph.commit_at(Position(pos))), "the crate's two ways to find an id");
        Ok(found)
    }
}
