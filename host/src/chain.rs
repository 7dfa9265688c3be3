//! The bytes of a chain and the list that names its files: what was read, before anything is asked of it.

use crate::{Error, Graph, Id, ffi, paths, read, shapes::Refuses};
use std::{
    ops::Range,
    os::unix::ffi::OsStrExt,
    path::{Path, PathBuf},
    sync::Arc,
};

const RECORD: usize = 32;

/// One file of a chain: its path, the bytes it takes, and why it could not be read where it could not.
#[derive(Clone, Debug)]
pub struct Member {
    pub path: PathBuf,
    pub trouble: Option<Error>,
    /// What its name says: 0 nothing, 1 a hash, 2 a hash that cannot be read.
    pub kind: u32,
    hash: [u8; 20],
    pub(crate) at: Range<usize>,
}

/// The files of a chain, read whole. Nothing is said yet on whether they open.
#[derive(Clone, Debug)]
pub struct Chain {
    data: Arc<Vec<u8>>,
    members: Vec<Member>,
    trouble: Option<Error>,
}

impl Member {
    fn read(path: PathBuf, data: &mut Vec<u8>) -> Member {
        let name = ffi::name(path.file_name().unwrap_or_default().as_bytes());
        let (at, trouble) = match read::whole(&path, data) {
            Ok(at) => (at, None),
            Err(e) => (0..0, Some(e)),
        };
        Member { path, trouble, kind: name.kind, hash: name.hash, at }
    }

    /// The record that names it in a list.
    fn record(&self) -> [u8; RECORD] {
        let mut record = [0; RECORD];
        record[..4].copy_from_slice(&(self.at.len() as u32).to_be_bytes());
        record[4..8].copy_from_slice(&self.kind.to_be_bytes());
        record[8..28].copy_from_slice(&self.hash);
        record
    }

    pub fn size(&self) -> usize {
        self.at.len()
    }
}

impl Chain {
    /// Reads the files that a path means. A file of the chain that cannot be read is kept with its trouble.
    pub fn read(path: impl AsRef<Path>) -> Result<Chain, Error> {
        let names = paths::names(path.as_ref())?;
        let mut data = Vec::new();
        let members = names.paths.into_iter().map(|p| Member::read(p, &mut data)).collect();
        Ok(Chain { data: Arc::new(data), members, trouble: names.trouble })
    }

    pub fn members(&self) -> &[Member] {
        &self.members
    }

    /// The bytes of a file.
    pub fn bytes(&self, index: usize) -> &[u8] {
        self.members.get(index).map_or(&[], |m| &self.data[m.at.clone()])
    }

    /// Why it is no chain: its chain file or one of its files could not be read.
    pub fn trouble(&self) -> Option<&Error> {
        self.trouble.as_ref().or_else(|| self.members.iter().find_map(|m| m.trouble.as_ref()))
    }

    /// Opens the chain.
    pub fn graph(&self) -> Result<Graph, Error> {
        match self.trouble() {
            Some(trouble) => Err(trouble.clone()),
            None => Graph::open(&self.data, 0..self.data.len(), &self.members),
        }
    }

    /// Opens one file by itself, as a chain of that file alone.
    pub fn alone(&self, index: usize) -> Result<Graph, Error> {
        let member = &self.members[index];
        match &member.trouble {
            Some(trouble) => Err(trouble.clone()),
            None => Graph::open(&self.data, member.at.clone(), std::slice::from_ref(member)),
        }
    }

    /// Goes through one file by itself and tells what it meets first, also where the chain does not open.
    pub fn traverse(&self, index: usize) -> Result<(), Error> {
        let member = &self.members[index];
        match &member.trouble {
            Some(trouble) => Err(trouble.clone()),
            None => match ffi::file_traverse((self.bytes(index), &member.record())).answer() {
                Ok(_) => Ok(()),
                Err(told) => Err(self.alone(index).map_or_else(|e| e, |g| g.refused(told))),
            },
        }
    }

    /// The chunks of a file in the order of its index, known ones and others; or why the index cannot be read.
    pub fn chunks(&self, index: usize) -> Result<Vec<(u32, Range<usize>)>, Error> {
        let mut all = Vec::new();
        for k in 0.. {
            let entry = ffi::entry(self.bytes(index), k).answer()?;
            if entry.id == 0 {
                break;
            }
            all.push((entry.id, entry.at..entry.at + entry.size));
        }
        Ok(all)
    }

    /// Where a file's trailer lies, the digest there and whether it is right, also where the file does not open.
    pub fn trailer(&self, index: usize) -> Result<(Range<usize>, Id, bool), Error> {
        let found = ffi::trailer(self.bytes(index)).answer()?;
        let at = found.at..found.at + found.size;
        let id =
            self.bytes(index).get(at.clone()).and_then(Id::from_bytes).expect("a trailer that the proved code hands out is in its bytes");
        Ok((at, id, found.right == 1))
    }
}

/// The list of some files.
pub(crate) fn list(members: &[Member]) -> Vec<u8> {
    members.iter().flat_map(Member::record).collect()
}
