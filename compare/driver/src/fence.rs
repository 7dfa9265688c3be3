//! Lent buffers between pages that nobody may touch: a read or a write outside ends the program.

use std::{ptr, slice};

const PAGE: usize = 4096;
const NONE: i32 = 0;
const READ: i32 = 1;
const WRITE: i32 = 2;
const PRIVATE_ANONYMOUS: i32 = 0x22;

unsafe extern "C" {
    fn mmap(at: *mut u8, size: usize, protection: i32, flags: i32, file: i32, offset: i64) -> *mut u8;
    fn mprotect(at: *mut u8, size: usize, protection: i32) -> i32;
}

/// Whether a buffer ends right before the page behind it, or starts right behind the page before it.
#[derive(Clone, Copy, Debug)]
pub enum Side {
    End,
    Start,
}

/// Some pages of memory, with one before and one behind that cannot be read or written.
pub struct Fence {
    room: usize,
    inside: *mut u8,
}

impl Fence {
    /// Room for so many bytes.
    pub fn new(bytes: usize) -> Fence {
        let room = bytes.next_multiple_of(PAGE).max(PAGE);
        // Fresh memory, which nothing else refers to, of three parts; the middle one is opened below.
        let start = unsafe { mmap(ptr::null_mut(), room + 2 * PAGE, NONE, PRIVATE_ANONYMOUS, -1, 0) };
        assert!(!start.is_null() && start.addr() != usize::MAX, "memory for a buffer");
        let inside = start.wrapping_add(PAGE);
        Fence { room, inside }
    }

    fn protect(&mut self, protection: i32) {
        // The pages between the two are this fence's own; it is borrowed, so no slice of it is alive.
        let done = unsafe { mprotect(self.inside, self.room, protection) };
        assert_eq!(done, 0, "pages of a fence");
    }

    /// Where `size` bytes lie.
    fn at(&self, size: usize, side: Side) -> *mut u8 {
        assert!(size <= self.room, "a buffer that fits its fence");
        match side {
            Side::End => self.inside.wrapping_add(self.room - size),
            Side::Start => self.inside,
        }
    }

    /// A copy of these bytes that can only be read.
    pub fn bytes(&mut self, bytes: &[u8], side: Side) -> &[u8] {
        self.protect(READ | WRITE);
        let at = self.at(bytes.len(), side);
        // `at` has as many bytes of this fence; they stay for as long as it is borrowed.
        unsafe { ptr::copy_nonoverlapping(bytes.as_ptr(), at, bytes.len()) };
        self.protect(READ);
        unsafe { slice::from_raw_parts(at, bytes.len()) }
    }

    /// These bytes, and the one behind them, which nobody may read. For trying the fence alone.
    pub fn one_too_many(&mut self, bytes: &[u8]) -> &[u8] {
        let lent = self.bytes(bytes, Side::End);
        // Not sound, on purpose: the last byte lies on the page behind.
        unsafe { slice::from_raw_parts(lent.as_ptr(), lent.len() + 1) }
    }

    /// So many numbers, each the mark.
    pub fn words(&mut self, count: usize, mark: u32, side: Side) -> &mut [u32] {
        self.protect(READ | WRITE);
        let at = self.at(4 * count, side).cast::<u32>();
        // As above; both ends of a fence are multiples of 4.
        let words = unsafe { slice::from_raw_parts_mut(at, count) };
        words.fill(mark);
        words
    }
}
