//! One file, opened by the crate.

use super::{Said, Stop, row};
use crate::{answers::Row, caught::caught};
use gix_commitgraph::{File, file::Position};
use gix_hash::{ObjectId, oid};
use memmap2::Mmap;
use std::path::Path;

/// An opened file, and where its bytes lie in memory, so that a lent part can be told by its place.
pub struct Original {
    pub file: File,
    memory: usize,
    pub size: usize,
}

pub fn open(bytes: &[u8], name: &Path) -> Said<Original> {
    open_held(bytes.to_vec(), name)
}

/// Opens a file in memory that is handed over.
pub fn open_held(held: Vec<u8>, name: &Path) -> Said<Original> {
    let (memory, size) = (held.as_ptr().addr(), held.len());
    match caught(|| File::new(Mmap::from_bytes(held), name.to_owned()))? {
        Ok(file) => Ok(Original { file, memory, size }),
        Err(error) => Err(Stop::by(&error.texts())),
    }
}

impl Original {
    pub fn commits(&self) -> u32 {
        self.file.num_commits()
    }

    /// The place of a lent id in the file, if it lies there.
    pub fn place(&self, id: &oid) -> Option<usize> {
        let at = id.as_bytes().as_ptr().addr();
        (self.memory..self.memory + self.size).contains(&at).then(|| at - self.memory)
    }

    /// The place in memory where the file's bytes start.
    pub fn memory(&self) -> usize {
        self.memory
    }

    fn stored(&self, id: &oid) -> usize {
        self.place(id).expect("an id that lies in the file")
    }

    pub fn id(&self, pos: u32) -> Said<usize> {
        Ok(caught(|| self.stored(self.file.id_at(Position(pos))))?)
    }

    pub fn tree(&self, pos: u32) -> Said<usize> {
        Ok(caught(|| self.stored(self.file.commit_at(Position(pos)).root_tree_id()))?)
    }

    pub fn commit(&self, pos: u32) -> Said<Row> {
        Ok(caught(|| row(self.file.commit_at(Position(pos))))?)
    }

    pub fn bases(&self) -> Vec<usize> {
        self.file.iter_base_graph_ids().map(|id| self.stored(id)).collect()
    }

    pub fn checksum(&self) -> usize {
        self.stored(self.file.checksum())
    }

    pub fn verify_checksum(&self) -> Said<()> {
        let answer = caught(|| self.file.verify_checksum())?;
        answer.map(drop).map_err(|error| Stop::by(&error.texts()))
    }

    pub fn lookup(&self, id: &[u8; 20]) -> Said<Option<u32>> {
        Ok(caught(|| self.file.lookup(ObjectId::Sha1(*id)))?.map(|pos| pos.0))
    }
}
