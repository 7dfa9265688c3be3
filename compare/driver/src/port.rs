//! The port's side: its exports as safe functions. A slice crosses as a pointer and a length. The only unsafe code of the driver.

use crate::{plant, shapes::*};

#[link(name = "exports", kind = "static")]
unsafe extern "C" {
    fn jampreso_sha1(s: *const u8, n: usize) -> Digest;
    fn jampreso_name(s: *const u8, n: usize) -> Name;
    fn jampreso_chunk(s: *const u8, n: usize, id: u32) -> Part;
    fn jampreso_entry(s: *const u8, n: usize, k: u32) -> Entry;
    fn jampreso_trailer(s: *const u8, n: usize) -> Trailer;
    fn jampreso_file_open(s: *const u8, n: usize) -> Opened;
    fn jampreso_file_id(s: *const u8, n: usize, f: Record, pos: u32) -> Part;
    fn jampreso_file_base(s: *const u8, n: usize, f: Record, j: u32) -> Part;
    fn jampreso_file_tree(s: *const u8, n: usize, f: Record, pos: u32) -> Part;
    fn jampreso_file_checksum(s: *const u8, n: usize, f: Record) -> Part;
    fn jampreso_file_verify_checksum(s: *const u8, n: usize, f: Record) -> Asked;
    fn jampreso_file_lookup(s: *const u8, n: usize, f: Record, id: *const u8, w: usize) -> Found;
    fn jampreso_file_commit(s: *const u8, n: usize, f: Record, pos: u32) -> Commit;
    fn jampreso_file_step(s: *const u8, n: usize, f: Record, pos: u32, phase: u32, edge: usize) -> Step;
    fn jampreso_file_word(s: *const u8, n: usize, f: Record, pos: u32, phase: u32, edge: usize) -> Part;
    fn jampreso_file_date(s: *const u8, n: usize, f: Record, pos: u32) -> Part;
    fn jampreso_file_entry(s: *const u8, n: usize, f: Record, pos: u32) -> Asked;
    fn jampreso_file_count(s: *const u8, n: usize, f: Record, pos: u32) -> Total;
    fn jampreso_file_list(s: *const u8, n: usize, f: Record, pos: u32, out: *mut u32, room: usize) -> Total;
    fn jampreso_file_traverse(s: *const u8, n: usize, list: *const u8, m: usize) -> Traversal;
    fn jampreso_open(s: *const u8, n: usize, list: *const u8, m: usize) -> Opening;
    fn jampreso_locate(s: *const u8, n: usize, list: *const u8, m: usize, pos: u32) -> Spot;
    fn jampreso_id(s: *const u8, n: usize, list: *const u8, m: usize, pos: u32) -> Part;
    fn jampreso_tree(s: *const u8, n: usize, list: *const u8, m: usize, pos: u32) -> Part;
    fn jampreso_find(s: *const u8, n: usize, list: *const u8, m: usize, id: *const u8, w: usize) -> Found;
    fn jampreso_commit(s: *const u8, n: usize, list: *const u8, m: usize, pos: u32) -> Commit;
    fn jampreso_step(s: *const u8, n: usize, list: *const u8, m: usize, pos: u32, phase: u32, edge: usize) -> Step;
    fn jampreso_door(s: *const u8, n: usize, list: *const u8, m: usize, pos: u32, phase: u32, edge: usize) -> Step;
    fn jampreso_list(s: *const u8, n: usize, list: *const u8, m: usize, pos: u32, out: *mut u32, room: usize) -> Total;
    fn jampreso_verify(s: *const u8, n: usize, list: *const u8, m: usize) -> Verification;
}

/// A file's bytes, or a chain and its list: what every question lends.
pub type Lent<'a> = (&'a [u8], &'a [u8]);

pub fn sha1(s: &[u8]) -> Digest {
    unsafe { jampreso_sha1(s.as_ptr(), s.len()) }
}

pub fn name(s: &[u8]) -> Name {
    plant::name(unsafe { jampreso_name(s.as_ptr(), s.len()) }, s)
}

pub fn chunk(s: &[u8], id: &[u8; 4]) -> Part {
    unsafe { jampreso_chunk(s.as_ptr(), s.len(), u32::from_be_bytes(*id)) }
}

pub fn entry(s: &[u8], k: u32) -> Entry {
    unsafe { jampreso_entry(s.as_ptr(), s.len(), k) }
}

pub fn trailer(s: &[u8]) -> Trailer {
    unsafe { jampreso_trailer(s.as_ptr(), s.len()) }
}

pub fn file_open(s: &[u8]) -> Opened {
    plant::opened(unsafe { jampreso_file_open(s.as_ptr(), s.len()) })
}

pub fn file_id(s: &[u8], f: Record, pos: u32) -> Part {
    unsafe { jampreso_file_id(s.as_ptr(), s.len(), f, pos) }
}

pub fn file_base(s: &[u8], f: Record, j: u32) -> Part {
    unsafe { jampreso_file_base(s.as_ptr(), s.len(), f, j) }
}

pub fn file_tree(s: &[u8], f: Record, pos: u32) -> Part {
    unsafe { jampreso_file_tree(s.as_ptr(), s.len(), f, pos) }
}

pub fn file_checksum(s: &[u8], f: Record) -> Part {
    unsafe { jampreso_file_checksum(s.as_ptr(), s.len(), f) }
}

pub fn file_verify_checksum(s: &[u8], f: Record) -> Asked {
    plant::checksum(unsafe { jampreso_file_verify_checksum(s.as_ptr(), s.len(), f) })
}

pub fn file_lookup(s: &[u8], f: Record, id: &[u8]) -> Found {
    unsafe { jampreso_file_lookup(s.as_ptr(), s.len(), f, id.as_ptr(), id.len()) }
}

pub fn file_commit(s: &[u8], f: Record, pos: u32) -> Commit {
    unsafe { jampreso_file_commit(s.as_ptr(), s.len(), f, pos) }
}

pub fn file_step(s: &[u8], f: Record, pos: u32, (phase, edge): (u32, usize)) -> Step {
    unsafe { jampreso_file_step(s.as_ptr(), s.len(), f, pos, phase, edge) }
}

pub fn file_word(s: &[u8], f: Record, pos: u32, (phase, edge): (u32, usize)) -> Part {
    unsafe { jampreso_file_word(s.as_ptr(), s.len(), f, pos, phase, edge) }
}

pub fn file_date(s: &[u8], f: Record, pos: u32) -> Part {
    unsafe { jampreso_file_date(s.as_ptr(), s.len(), f, pos) }
}

pub fn file_entry(s: &[u8], f: Record, pos: u32) -> Asked {
    unsafe { jampreso_file_entry(s.as_ptr(), s.len(), f, pos) }
}

pub fn file_count(s: &[u8], f: Record, pos: u32) -> Total {
    unsafe { jampreso_file_count(s.as_ptr(), s.len(), f, pos) }
}

pub fn file_list(s: &[u8], f: Record, pos: u32, out: &mut [u32]) -> Total {
    unsafe { jampreso_file_list(s.as_ptr(), s.len(), f, pos, out.as_mut_ptr(), out.len()) }
}

pub fn file_traverse((s, list): Lent) -> Traversal {
    plant::traversal(unsafe { jampreso_file_traverse(s.as_ptr(), s.len(), list.as_ptr(), list.len()) })
}

pub fn open((s, list): Lent) -> Opening {
    unsafe { jampreso_open(s.as_ptr(), s.len(), list.as_ptr(), list.len()) }
}

pub fn locate((s, list): Lent, pos: u32) -> Spot {
    unsafe { jampreso_locate(s.as_ptr(), s.len(), list.as_ptr(), list.len(), pos) }
}

pub fn id((s, list): Lent, pos: u32) -> Part {
    plant::id(unsafe { jampreso_id(s.as_ptr(), s.len(), list.as_ptr(), list.len(), pos) })
}

pub fn tree((s, list): Lent, pos: u32) -> Part {
    unsafe { jampreso_tree(s.as_ptr(), s.len(), list.as_ptr(), list.len(), pos) }
}

pub fn find((s, list): Lent, id: &[u8]) -> Found {
    plant::found(unsafe { jampreso_find(s.as_ptr(), s.len(), list.as_ptr(), list.len(), id.as_ptr(), id.len()) })
}

pub fn commit((s, list): Lent, pos: u32) -> Commit {
    plant::commit(unsafe { jampreso_commit(s.as_ptr(), s.len(), list.as_ptr(), list.len(), pos) })
}

pub fn step((s, list): Lent, pos: u32, (phase, edge): (u32, usize)) -> Step {
    plant::step(unsafe { jampreso_step(s.as_ptr(), s.len(), list.as_ptr(), list.len(), pos, phase, edge) })
}

pub fn door((s, list): Lent, pos: u32, (phase, edge): (u32, usize)) -> Step {
    plant::door(unsafe { jampreso_door(s.as_ptr(), s.len(), list.as_ptr(), list.len(), pos, phase, edge) })
}

pub fn list((s, list): Lent, pos: u32, out: &mut [u32]) -> Total {
    let total = unsafe { jampreso_list(s.as_ptr(), s.len(), list.as_ptr(), list.len(), pos, out.as_mut_ptr(), out.len()) };
    plant::list(total, out)
}

pub fn verify((s, list): Lent) -> Verification {
    plant::verification(unsafe { jampreso_verify(s.as_ptr(), s.len(), list.as_ptr(), list.len()) })
}
