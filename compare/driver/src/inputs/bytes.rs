//! Every single-byte change and every truncation of a small chain of two files.

use super::{
    Files, Input,
    parts::{seal, seal_all},
    sketch::{self, Commit},
    trailer,
};
use crate::seeded::Seeded;

fn commit(seeded: &mut Seeded, first: u8, parents: &[u32], generation: u32) -> Commit {
    let mut id = seeded.bytes::<20>();
    id[0] = first;
    Commit { id, tree: seeded.bytes(), parents: parents.to_vec(), generation, time: 0x1_2345_6789 }
}

/// Two files: a root, its child and a merge of three; then a child, and a merge of four over both files.
pub fn small() -> Files {
    let mut seeded = Seeded::new(7);
    let s = &mut seeded;
    let older = [commit(s, 2, &[], 1), commit(s, 2, &[0], 2), commit(s, 9, &[0, 1, 0], 3)];
    let newer = [commit(s, 0, &[2], 4), commit(s, 255, &[3, 2, 1, 0], 5)];
    let mut files = Files::default();
    files.push(sketch::file(&older, &[]).write(), 1);
    let base = trailer(&files.0[0].0);
    files.push(sketch::file(&newer, &[base]).write(), 1);
    files
}

/// How much is made right again after a change.
#[derive(Clone, Copy, Debug)]
pub enum Right {
    /// All trailers, base ids and claims.
    All,
    /// The trailer of the changed file alone.
    Trailer,
    Nothing,
}

/// The chain with another byte at one place. Where the changed byte is one that would be made right again, it stays changed.
pub fn change(files: &Files, file: usize, at: usize, byte: u8, right: Right) -> Input {
    let mut changed = files.clone();
    let size = changed.0[file].0.len();
    changed.0[file].0[at] = byte;
    match right {
        _ if at + 20 >= size => (),
        Right::All => seal_all(&mut changed),
        Right::Trailer => seal(&mut changed.0[file].0),
        Right::Nothing => (),
    }
    changed.input("single byte")
}

/// The list with another byte at one place.
pub fn change_list(files: &Files, at: usize, byte: u8) -> Input {
    let mut input = files.input("single byte of the list");
    input.list[at] = byte;
    input
}

/// The chain cut to a length, its list cut with it; the trailer of the last file made right again or not.
pub fn cut(files: &Files, length: usize, sealed: bool) -> Input {
    let mut left = length;
    let mut cut = Files::default();
    for (bytes, record) in &files.0 {
        let mut part = bytes[..bytes.len().min(left)].to_vec();
        left -= part.len();
        if sealed && part.len() < bytes.len() {
            seal(&mut part);
        }
        cut.push(part, record.kind);
        if left == 0 {
            break;
        }
    }
    cut.input("truncation")
}

/// The chain cut to a length under the list of the whole.
pub fn cut_alone(files: &Files, length: usize) -> Input {
    let mut input = files.input("truncation, list unchanged");
    input.chain.truncate(length);
    input
}

/// The list cut to a length.
pub fn cut_list(files: &Files, length: usize) -> Input {
    let mut input = files.input("truncation of the list");
    input.list.truncate(length);
    input
}
