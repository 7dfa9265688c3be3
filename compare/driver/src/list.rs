//! Lists: records of 32 bytes that name the files of a chain. The crate knows no list, so refusals 1 and 30 to 32 are a plain reading of document 01.

use crate::answers::{Answer, Refusal};
use std::path::PathBuf;

pub const RECORD: usize = 32;
pub const MOST: usize = 1 << 30;

/// A record: the file's length, the kind of its name, and the hash that a name of kind 1 claims.
#[derive(Clone, Copy, Debug, Eq, PartialEq)]
pub struct Record {
    pub length: u32,
    pub kind: u32,
    pub hash: [u8; 20],
}

fn word(bytes: &[u8], at: usize) -> u32 {
    u32::from_be_bytes(bytes[at..at + 4].try_into().unwrap())
}

impl Record {
    /// The record in these 32 bytes, if they keep to the layout.
    fn read(bytes: &[u8]) -> Option<Record> {
        let record = Record { length: word(bytes, 0), kind: word(bytes, 4), hash: bytes[8..28].try_into().unwrap() };
        let sound = record.kind <= 2 && (record.kind == 1 || record.hash == [0; 20]) && word(bytes, 28) == 0;
        sound.then_some(record)
    }

    pub fn bytes(&self) -> [u8; RECORD] {
        let mut all = [0; RECORD];
        all[..4].copy_from_slice(&self.length.to_be_bytes());
        all[4..8].copy_from_slice(&self.kind.to_be_bytes());
        all[8..28].copy_from_slice(&self.hash);
        all
    }

    /// A path with a name of the record's kind, for the crate.
    pub fn path(&self) -> PathBuf {
        let hex: String = self.hash.iter().map(|b| format!("{b:02x}")).collect();
        PathBuf::from(match self.kind {
            0 => "commit-graph".to_owned(),
            1 => format!("graph-{hex}.graph"),
            _ => "graph-no-hash.graph".to_owned(),
        })
    }
}

/// The records of a chain of this size.
pub fn records(size: usize, list: &[u8]) -> Answer<Vec<Record>> {
    if size > MOST {
        return Err(Refusal::plain(1));
    }
    if list.is_empty() || list.len() % RECORD != 0 || list.len() > 256 * RECORD {
        return Err(Refusal::plain(30));
    }
    any_records(size, list)
}

/// The same of any number of records: 31 over all of them, then 32.
pub fn any_records(size: usize, list: &[u8]) -> Answer<Vec<Record>> {
    let mut records = Vec::new();
    for (k, bytes) in list.chunks_exact(RECORD).enumerate() {
        records.push(Record::read(bytes).ok_or(Refusal::at(31, k as u64))?);
    }
    let sum: u64 = records.iter().map(|r| u64::from(r.length)).sum();
    if sum != size as u64 {
        return Err(Refusal::plain(32));
    }
    Ok(records)
}
