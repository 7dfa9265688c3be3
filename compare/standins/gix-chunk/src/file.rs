//! The index: entries of 12 bytes, each a 4-byte id and an 8-byte offset; the last has id 0 and says where the chunks end.

use crate::Id;
use gix_error::{Message, message};
use std::{error::Error, fmt, ops::Range};

const ENTRY: usize = 12;
const LAST: Id = [0; 4];

/// Why an index is refused: document 01's number, and the entry.
#[derive(Clone, Copy, Debug)]
pub struct Refused {
    pub number: u32,
    pub entry: usize,
}

impl fmt::Display for Refused {
    fn fmt(&self, f: &mut fmt::Formatter<'_>) -> fmt::Result {
        write!(f, "stand-in: chunk index refused by {} at entry {}", self.number, self.entry)
    }
}

impl Error for Refused {}

/// Where each chunk lies.
pub struct Index {
    chunks: Vec<(Id, Range<u64>)>,
    end: u64,
}

/// Entry `k` of the entries in `bytes`.
fn entry(bytes: &[u8], k: usize) -> (Id, u64) {
    let entry = &bytes[k * ENTRY..][..ENTRY];
    let (id, offset) = entry.split_at(4);
    (id.try_into().unwrap(), u64::from_be_bytes(offset.try_into().unwrap()))
}

impl Index {
    /// The size of an index that names so many chunks.
    pub const fn size_for_entries(chunks: usize) -> usize {
        (chunks + 1) * ENTRY
    }

    /// Reads the index of so many chunks that starts at `start` of a file.
    pub fn from_bytes(file: &[u8], start: usize, chunks: u32) -> Result<Index, Refused> {
        let count = chunks as usize;
        let size = Index::size_for_entries(count);
        let Some(bytes) = file.get(start..).and_then(|rest| rest.get(..size)) else {
            return Err(Refused { number: 6, entry: 0 });
        };
        let (least, most) = ((start + size) as u64, file.len() as u64);
        let mut index = Index { chunks: Vec::with_capacity(count), end: 0 };
        for k in 0..count {
            let ((id, from), (_, to)) = (entry(bytes, k), entry(bytes, k + 1));
            index.admit(id, from..to, least, most).map_err(|number| Refused { number, entry: k })?;
        }
        let (id, end) = entry(bytes, count);
        if id != LAST {
            return Err(Refused { number: 7, entry: count });
        }
        index.end = end;
        Ok(index)
    }

    /// One more chunk, or the number of its refusal.
    fn admit(&mut self, id: Id, at: Range<u64>, least: u64, most: u64) -> Result<(), u32> {
        if id == LAST {
            return Err(7);
        }
        if self.chunks.iter().any(|(seen, _)| *seen == id) {
            return Err(8);
        }
        if at.start < least || at.start > most || at.end < at.start || at.end > most {
            return Err(9);
        }
        self.chunks.push((id, at));
        Ok(())
    }

    /// Where a chunk lies.
    pub fn usize_offset_by_id(&self, id: Id) -> Result<Range<usize>, Message> {
        let found = self.chunks.iter().find(|(seen, _)| *seen == id);
        let (_, at) = found.ok_or_else(|| message!("stand-in: no chunk {}", String::from_utf8_lossy(&id)))?;
        Ok(at.start as usize..at.end as usize)
    }

    /// What `judge` says of where a chunk lies.
    pub fn validated_usize_offset_by_id<T>(&self, id: Id, judge: impl FnOnce(Range<usize>) -> T) -> Result<T, Message> {
        self.usize_offset_by_id(id).map(judge)
    }

    /// Where the chunks end.
    pub fn highest_offset(&self) -> u64 {
        self.end
    }
}
