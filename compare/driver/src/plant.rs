//! Errors planted in the port's answers, to see that each is noticed. None is planted unless one is chosen.

use crate::shapes::*;
use std::sync::atomic::{AtomicUsize, Ordering::Relaxed};

/// Which error is planted; 0 for none.
static CHOSEN: AtomicUsize = AtomicUsize::new(0);

/// The errors, by their numbers from 1 up.
pub const ERRORS: [&str; 18] = [
    "the id at a position lies a byte further",
    "a position that is found is one too high",
    "an id that is found is said to be absent",
    "of two kinds of commits one count is one too high",
    "the file of a refusal is dropped",
    "the place of a refusal is one too high",
    "a length is one too long",
    "a commit that is its own ancestor has a length",
    "the entry behind the last parent is written",
    "a refused parent list has its first entry written",
    "a step within EDGE hands back the number that it had",
    "the second door goes on after a refusal",
    "a time lacks its two highest bits",
    "an EDGE index is taken for a position",
    "most parents is 0",
    "a fan that falls is opened",
    "capital hex digits are no hash",
    "a wrong trailer is taken for right",
];

pub fn choose(error: usize) {
    CHOSEN.store(error, Relaxed);
}

fn on(error: usize) -> bool {
    CHOSEN.load(Relaxed) == error
}

pub fn id(mut a: Part) -> Part {
    if on(1) && a.size > 0 {
        a.at += 1;
    }
    a
}

pub fn found(mut a: Found) -> Found {
    if on(2) && a.found == 1 {
        a.pos += 1;
    }
    if on(3) && a.found == 1 {
        (a.found, a.pos) = (0, 0);
    }
    a
}

pub fn verification(mut a: Verification) -> Verification {
    if on(4) && a.number == 0 && a.commits > 1 {
        a.counts[1] += 1;
    }
    if on(5) {
        a.file = 0;
    }
    if on(6) && a.place > 0 {
        a.place += 1;
    }
    if on(7) && a.number == 0 && a.cyclic == 0 {
        a.length += 1;
    }
    if on(8) {
        a.cyclic = 0;
    }
    a
}

pub fn list(a: Total, out: &mut [u32]) -> Total {
    if on(9) && a.number == 0 && a.count < out.len() {
        out[a.count] = 0;
    }
    if on(10) && a.number > 0 && !out.is_empty() {
        out[0] = 0;
    }
    a
}

pub fn step(mut a: Step) -> Step {
    if on(11) && a.phase == 2 {
        a.edge -= 1;
    }
    a
}

pub fn door(mut a: Step) -> Step {
    if on(12) && a.kind == 1 {
        a.phase = 1;
    }
    a
}

pub fn commit(mut a: Commit) -> Commit {
    if on(13) {
        a.time %= 1 << 32;
    }
    if on(14) && a.second_kind == 2 {
        a.second_kind = 1;
    }
    a
}

pub fn traversal(mut a: Traversal) -> Traversal {
    if on(15) {
        a.most = 0;
    }
    a
}

pub fn opened(mut a: Opened) -> Opened {
    if on(16) && a.number == 20 {
        (a.number, a.place) = (0, 0);
    }
    a
}

pub fn name(mut a: Name, name: &[u8]) -> Name {
    if on(17) && a.kind == 1 && name.iter().any(|b| (b'A'..=b'F').contains(b)) {
        (a.kind, a.hash) = (2, [0; 20]);
    }
    a
}

pub fn checksum(mut a: Asked) -> Asked {
    if on(18) {
        a.number = 0;
    }
    a
}
