//! Where the chunks of an opened file lie, by the stand-in's chunk index, and what document 01 adds to the crate there: refusals 20 and 66.

use crate::shapes::Record;
use gix_chunk::file::Index;
use std::ops::Range;

/// The bytes of a file whose index is sound, and its index.
pub struct Layout<'a> {
    bytes: &'a [u8],
    index: Index,
}

impl<'a> Layout<'a> {
    pub fn read(bytes: &'a [u8]) -> Option<Layout<'a>> {
        let count = u32::from(*bytes.get(6)?);
        Some(Layout { bytes, index: Index::from_bytes(bytes, 8, count).ok()? })
    }

    pub fn chunk(&self, id: &[u8; 4]) -> Option<Range<usize>> {
        self.index.usize_offset_by_id(*id).ok()
    }

    fn start(&self, id: &[u8; 4]) -> usize {
        self.chunk(id).map_or(0, |at| at.start)
    }

    fn fan(&self, k: usize) -> u32 {
        let at = self.start(b"OIDF") + 4 * k;
        u32::from_be_bytes(self.bytes[at..at + 4].try_into().unwrap())
    }

    fn commits(&self) -> u32 {
        self.fan(255)
    }

    /// What the file says of itself, where OIDF is as it should be.
    pub fn record(&self) -> Record {
        let edge = self.chunk(b"EDGE");
        Record {
            width: 20,
            oidf: self.start(b"OIDF"),
            oidl: self.start(b"OIDL"),
            cdat: self.start(b"CDAT"),
            edge: edge.clone().map_or(0, |at| at.start),
            edge_size: edge.clone().map_or(0, |at| at.len()),
            base: self.start(b"BASE"),
            commits: self.commits(),
            bases: self.bytes[7].into(),
            has_edge: edge.is_some().into(),
            spare: 0,
        }
    }

    /// The first fan entry that is below the one before (20).
    pub fn falls(&self) -> Option<u64> {
        (1..256).find(|k| self.fan(*k) < self.fan(k - 1)).map(|k| k as u64)
    }

    /// The first commit whose id is not in the fan bucket of its position (66).
    pub fn misplaced(&self) -> Option<u64> {
        let outside = |pos: &u32| {
            let first = usize::from(self.bytes[self.start(b"OIDL") + 20 * *pos as usize]);
            let low = if first == 0 { 0 } else { self.fan(first - 1) };
            *pos < low || self.fan(first) <= *pos
        };
        (0..self.commits()).find(outside).map(u64::from)
    }

    /// How many bytes EDGE has left at four times a number; nothing where there is no EDGE.
    pub fn edge_left(&self, number: usize) -> Option<usize> {
        let at = self.chunk(b"EDGE")?;
        Some(number.checked_mul(4).map_or(0, |skip| at.len().saturating_sub(skip)))
    }
}
