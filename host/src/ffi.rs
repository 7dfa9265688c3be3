//! The proved exports as safe functions: the only unsafe code of this crate.
//!
//! Why each call is sound. Every function below is proved, for all inputs, to end and to read and write nothing outside of what it is lent;
//! none has a condition on its inputs. What is left to this side:
//!
//! 1. A pointer and a length name memory that is there for the whole call. A Rust slice does, an empty one too: its pointer is not null.
//! 2. Nobody writes to it meanwhile. A shared borrow forbids that.
//! 3. The declarations match the exported ones. `shapes.rs` has them field for field, and the tests run them.
//!
//! The functions keep no pointer: their answers are numbers. The two exports that fill a lent list are not used, so nothing lent is changed.

use crate::shapes::*;

#[link(name = "exports", kind = "static")]
unsafe extern "C" {
    fn jampreso_sha1(s: *const u8, n: usize) -> Digest;
    fn jampreso_name(s: *const u8, n: usize) -> Name;
    fn jampreso_entry(s: *const u8, n: usize, k: u32) -> Entry;
    fn jampreso_trailer(s: *const u8, n: usize) -> Trailer;
    fn jampreso_file_open(s: *const u8, n: usize) -> Opened;
    fn jampreso_file_id(s: *const u8, n: usize, f: Record, pos: u32) -> Part;
    fn jampreso_file_base(s: *const u8, n: usize, f: Record, j: u32) -> Part;
    fn jampreso_file_tree(s: *const u8, n: usize, f: Record, pos: u32) -> Part;
    fn jampreso_file_checksum(s: *const u8, n: usize, f: Record) -> Part;
    fn jampreso_file_verify_checksum(s: *const u8, n: usize, f: Record) -> Asked;
    fn jampreso_file_lookup(s: *const u8, n: usize, f: Record, id: *const u8, w: usize) -> Found;
    fn jampreso_file_commit(s: *const u8, n: usize, f: Record, pos: u32) -> Commit;
    fn jampreso_file_count(s: *const u8, n: usize, f: Record, pos: u32) -> Total;
    fn jampreso_file_entry(s: *const u8, n: usize, f: Record, pos: u32) -> Asked;
    fn jampreso_file_date(s: *const u8, n: usize, f: Record, pos: u32) -> Part;
    fn jampreso_file_word(s: *const u8, n: usize, f: Record, pos: u32, phase: u32, edge: usize) -> Part;
    fn jampreso_file_step(s: *const u8, n: usize, f: Record, pos: u32, phase: u32, edge: usize) -> Step;
    fn jampreso_file_traverse(s: *const u8, n: usize, list: *const u8, m: usize) -> Traversal;
    fn jampreso_open(s: *const u8, n: usize, list: *const u8, m: usize) -> Opening;
    fn jampreso_locate(s: *const u8, n: usize, list: *const u8, m: usize, pos: u32) -> Spot;
    fn jampreso_id(s: *const u8, n: usize, list: *const u8, m: usize, pos: u32) -> Part;
    fn jampreso_find(s: *const u8, n: usize, list: *const u8, m: usize, id: *const u8, w: usize) -> Found;
    fn jampreso_commit(s: *const u8, n: usize, list: *const u8, m: usize, pos: u32) -> Commit;
    fn jampreso_step(s: *const u8, n: usize, list: *const u8, m: usize, pos: u32, phase: u32, edge: usize) -> Step;
    fn jampreso_verify(s: *const u8, n: usize, list: *const u8, m: usize) -> Verification;
}

/// A chain and the list that names its files.
pub type Lent<'a> = (&'a [u8], &'a [u8]);

pub fn sha1(s: &[u8]) -> Digest {
    // Sound: the slice is borrowed for the call and only read.
    unsafe { jampreso_sha1(s.as_ptr(), s.len()) }
}

pub fn name(s: &[u8]) -> Name {
    // Sound: the slice is borrowed for the call and only read.
    unsafe { jampreso_name(s.as_ptr(), s.len()) }
}

pub fn entry(s: &[u8], k: u32) -> Entry {
    // Sound: the slice is borrowed for the call and only read; any number has its answer.
    unsafe { jampreso_entry(s.as_ptr(), s.len(), k) }
}

pub fn trailer(s: &[u8]) -> Trailer {
    // Sound: the slice is borrowed for the call and only read.
    unsafe { jampreso_trailer(s.as_ptr(), s.len()) }
}

pub fn file_open(s: &[u8]) -> Opened {
    // Sound: the slice is borrowed for the call and only read.
    unsafe { jampreso_file_open(s.as_ptr(), s.len()) }
}

pub fn file_id(s: &[u8], f: Record, pos: u32) -> Part {
    // Sound: as above; a record of other bytes is refused by 40 and not followed.
    unsafe { jampreso_file_id(s.as_ptr(), s.len(), f, pos) }
}

pub fn file_base(s: &[u8], f: Record, j: u32) -> Part {
    // Sound: as `file_id`.
    unsafe { jampreso_file_base(s.as_ptr(), s.len(), f, j) }
}

pub fn file_tree(s: &[u8], f: Record, pos: u32) -> Part {
    // Sound: as `file_id`.
    unsafe { jampreso_file_tree(s.as_ptr(), s.len(), f, pos) }
}

pub fn file_checksum(s: &[u8], f: Record) -> Part {
    // Sound: as `file_id`.
    unsafe { jampreso_file_checksum(s.as_ptr(), s.len(), f) }
}

pub fn file_verify_checksum(s: &[u8], f: Record) -> Asked {
    // Sound: as `file_id`.
    unsafe { jampreso_file_verify_checksum(s.as_ptr(), s.len(), f) }
}

pub fn file_lookup(s: &[u8], f: Record, id: &[u8]) -> Found {
    // Sound: as `file_id`; both slices are borrowed for the call and only read, and an id of any length has its answer.
    unsafe { jampreso_file_lookup(s.as_ptr(), s.len(), f, id.as_ptr(), id.len()) }
}

pub fn file_commit(s: &[u8], f: Record, pos: u32) -> Commit {
    // Sound: as `file_id`.
    unsafe { jampreso_file_commit(s.as_ptr(), s.len(), f, pos) }
}

pub fn file_count(s: &[u8], f: Record, pos: u32) -> Total {
    // Sound: as `file_id`.
    unsafe { jampreso_file_count(s.as_ptr(), s.len(), f, pos) }
}

pub fn file_entry(s: &[u8], f: Record, pos: u32) -> Asked {
    // Sound: as `file_id`.
    unsafe { jampreso_file_entry(s.as_ptr(), s.len(), f, pos) }
}

pub fn file_date(s: &[u8], f: Record, pos: u32) -> Part {
    // Sound: as `file_id`.
    unsafe { jampreso_file_date(s.as_ptr(), s.len(), f, pos) }
}

pub fn file_word(s: &[u8], f: Record, pos: u32, (phase, edge): (u32, usize)) -> Part {
    // Sound: as `file_step`.
    unsafe { jampreso_file_word(s.as_ptr(), s.len(), f, pos, phase, edge) }
}

pub fn file_step(s: &[u8], f: Record, pos: u32, (phase, edge): (u32, usize)) -> Step {
    // Sound: as `file_id`; a forged phase or EDGE number has its answer too.
    unsafe { jampreso_file_step(s.as_ptr(), s.len(), f, pos, phase, edge) }
}

pub fn file_traverse((s, list): Lent) -> Traversal {
    // Sound: both slices are borrowed for the call and only read.
    unsafe { jampreso_file_traverse(s.as_ptr(), s.len(), list.as_ptr(), list.len()) }
}

pub fn open((s, list): Lent) -> Opening {
    // Sound: both slices are borrowed for the call and only read.
    unsafe { jampreso_open(s.as_ptr(), s.len(), list.as_ptr(), list.len()) }
}

pub fn locate((s, list): Lent, pos: u32) -> Spot {
    // Sound: as `open`; any position has its answer.
    unsafe { jampreso_locate(s.as_ptr(), s.len(), list.as_ptr(), list.len(), pos) }
}

pub fn id((s, list): Lent, pos: u32) -> Part {
    // Sound: as `locate`.
    unsafe { jampreso_id(s.as_ptr(), s.len(), list.as_ptr(), list.len(), pos) }
}

pub fn find((s, list): Lent, id: &[u8]) -> Found {
    // Sound: as `open`, with a third slice lent likewise.
    unsafe { jampreso_find(s.as_ptr(), s.len(), list.as_ptr(), list.len(), id.as_ptr(), id.len()) }
}

pub fn commit((s, list): Lent, pos: u32) -> Commit {
    // Sound: as `locate`.
    unsafe { jampreso_commit(s.as_ptr(), s.len(), list.as_ptr(), list.len(), pos) }
}

pub fn step((s, list): Lent, pos: u32, (phase, edge): (u32, usize)) -> Step {
    // Sound: as `locate`; a forged phase or EDGE number has its answer too.
    unsafe { jampreso_step(s.as_ptr(), s.len(), list.as_ptr(), list.len(), pos, phase, edge) }
}

pub fn verify((s, list): Lent) -> Verification {
    // Sound: as `open`.
    unsafe { jampreso_verify(s.as_ptr(), s.len(), list.as_ptr(), list.len()) }
}
