//! What the two sides are asked about: chains with their lists, sound and spoiled.

pub mod bytes;
pub mod damage;
pub mod edges;
pub mod git;
pub mod history;
pub mod names;
pub mod parts;
pub mod sketch;
mod spoil;

use crate::list::Record;

/// A chain and its list, and where they come from.
#[derive(Clone, Debug, Default)]
pub struct Input {
    pub kind: &'static str,
    pub chain: Vec<u8>,
    pub list: Vec<u8>,
}

impl Input {
    /// How many bytes there are; of the largest inputs none are kept, and none of them is the smallest of anything but its own row.
    pub fn size(&self) -> usize {
        if self.kind.starts_with("1 GiB") { usize::MAX } else { self.chain.len() + self.list.len() }
    }
}

/// The files of a chain, each with its record.
#[derive(Clone, Debug, Default)]
pub struct Files(pub Vec<(Vec<u8>, Record)>);

/// The last 20 bytes of a file, or zeros.
pub fn trailer(bytes: &[u8]) -> [u8; 20] {
    bytes.last_chunk().copied().unwrap_or([0; 20])
}

impl Files {
    /// Adds a file with a name of this kind; a name of kind 1 claims the trailer.
    pub fn push(&mut self, bytes: Vec<u8>, kind: u32) {
        let hash = if kind == 1 { trailer(&bytes) } else { [0; 20] };
        let record = Record { length: bytes.len() as u32, kind, hash };
        self.0.push((bytes, record));
    }

    pub fn list(&self) -> Vec<u8> {
        self.0.iter().flat_map(|(_, record)| record.bytes()).collect()
    }

    pub fn chain(&self) -> Vec<u8> {
        self.0.iter().flat_map(|(bytes, _)| bytes.iter().copied()).collect()
    }

    pub fn input(&self, kind: &'static str) -> Input {
        Input { kind, chain: self.chain(), list: self.list() }
    }

    /// Puts each record's length right again, and the claim of kind 1.
    pub fn relist(&mut self) {
        for (bytes, record) in &mut self.0 {
            record.length = bytes.len() as u32;
            if record.kind == 1 {
                record.hash = trailer(bytes);
            }
        }
    }
}
