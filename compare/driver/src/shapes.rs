//! The structs of the port's exports. What is expected is put into the same form, so that every field is compared.

use crate::answers::{Answer, Located, Refusal, Row, Summed, Verified};

macro_rules! shape {
    ($(#[$doc:meta])* $name:ident { $($field:ident: $kind:ty),* $(,)? }) => {
        $(#[$doc])*
        #[repr(C)]
        #[derive(Clone, Copy, Debug, Eq, PartialEq)]
        pub struct $name { $(pub $field: $kind),* }
    };
}

macro_rules! refusing {
    ($($name:ident)*) => { $(impl Refuses for $name {
        fn told(&self) -> Refusal {
            Refusal { number: self.number, file: self.file, place: self.place }
        }
        fn tell(&mut self, r: Refusal) {
            (self.number, self.file, self.place) = (r.number, r.file, r.place);
        }
    })* };
}

/// An answer that may be a refusal; number 0 where it is none.
pub trait Refuses: Copy {
    fn told(&self) -> Refusal;
    fn tell(&mut self, r: Refusal);
}

shape!(Digest { bytes: [u8; 20] });
shape!(Name { kind: u32, hash: [u8; 20] });
shape!(
    /// What an opened file says of itself; it is handed back to the questions on the file.
    Record {
        width: usize, oidf: usize, oidl: usize, cdat: usize, edge: usize, edge_size: usize, base: usize,
        commits: u32, bases: u32, has_edge: u32, spare: u32,
    }
);
shape!(Opened { record: Record, place: u64, number: u32, file: u32 });
shape!(Asked { place: u64, number: u32, file: u32 });
shape!(Part { at: usize, size: usize, place: u64, number: u32, file: u32 });
shape!(Trailer { at: usize, size: usize, place: u64, number: u32, file: u32, right: u32, spare: u32 });
shape!(Entry { at: usize, size: usize, place: u64, number: u32, file: u32, id: u32, spare: u32 });
shape!(Found { place: u64, number: u32, file: u32, found: u32, pos: u32 });
shape!(Commit {
    time: u64,
    place: u64,
    number: u32,
    file: u32,
    generation: u32,
    first_kind: u32,
    first: u32,
    second_kind: u32,
    second: u32,
    spare: u32,
});
shape!(
    /// Kind 0 is a parent, 1 a refusal, 2 the end; the phase is the one after the step.
    Step { edge: usize, place: u64, number: u32, file: u32, kind: u32, parent: u32, phase: u32, spare: u32 }
);
shape!(Total { count: usize, place: u64, number: u32, file: u32 });
shape!(Traversal {
    most: usize,
    place: u64,
    number: u32,
    file: u32,
    commits: u32,
    highest: u32,
    lowest: u32,
    counts: [u32; 66],
    spare: u32,
});
shape!(Opening { place: u64, number: u32, file: u32, commits: u32, spare: u32 });
shape!(Spot { start: usize, size: usize, place: u64, number: u32, file: u32, index: u32, pos: u32 });
shape!(Verification { place: u64, number: u32, file: u32, commits: u32, cyclic: u32, length: u32, counts: [u32; 66], spare: u32 });

refusing!(Opened Asked Part Found Commit Step Total Traversal Opening Spot Verification);

/// The values of an answer, and a refusal whose number is 0; or nothing, and the refusal.
fn split<T>(answer: Answer<T>) -> (Option<T>, Refusal) {
    match answer {
        Ok(value) => (Some(value), Refusal::NONE),
        Err(refusal) => (None, refusal),
    }
}

impl Opened {
    pub fn of(answer: Answer<Record>) -> Opened {
        let (value, Refusal { number, file, place }) = split(answer);
        Opened { record: value.unwrap_or(Record::NONE), place, number, file }
    }
}

impl Record {
    pub const NONE: Record =
        Record { width: 0, oidf: 0, oidl: 0, cdat: 0, edge: 0, edge_size: 0, base: 0, commits: 0, bases: 0, has_edge: 0, spare: 0 };
}

impl Asked {
    pub fn of(answer: Answer<()>) -> Asked {
        let (_, Refusal { number, file, place }) = split(answer);
        Asked { place, number, file }
    }
}

impl Part {
    /// A part that starts at `at`; every part that is asked for has 20 bytes.
    pub fn of(answer: Answer<usize>) -> Part {
        let (value, Refusal { number, file, place }) = split(answer);
        let (at, size) = value.map_or((0, 0), |at| (at, 20));
        Part { at, size, place, number, file }
    }

    pub fn chunk(at: Option<std::ops::Range<usize>>) -> Part {
        let at = at.unwrap_or(0..0);
        Part { at: at.start, size: at.len(), place: 0, number: 0, file: 0 }
    }
}

impl Found {
    pub fn of(answer: Answer<Option<u32>>) -> Found {
        let (value, Refusal { number, file, place }) = split(answer);
        let pos = value.flatten();
        Found { place, number, file, found: pos.is_some().into(), pos: pos.unwrap_or(0) }
    }
}

impl Commit {
    pub fn of(answer: Answer<Row>) -> Commit {
        let (value, Refusal { number, file, place }) = split(answer);
        let row = value.unwrap_or_default();
        let ((first_kind, first), (second_kind, second)) = (row.first, row.second);
        let (time, generation) = (row.time, row.generation);
        Commit { time, place, number, file, generation, first_kind, first, second_kind, second, spare: 0 }
    }
}

impl Step {
    pub const EXHAUSTED: u32 = 3;

    pub fn parent(parent: u32, (phase, edge): (u32, usize)) -> Step {
        Step { edge, place: 0, number: 0, file: 0, kind: 0, parent, phase, spare: 0 }
    }

    pub fn refused(r: Refusal) -> Step {
        Step { edge: 0, place: r.place, number: r.number, file: r.file, kind: 1, parent: 0, phase: Step::EXHAUSTED, spare: 0 }
    }

    pub fn end() -> Step {
        Step { edge: 0, place: 0, number: 0, file: 0, kind: 2, parent: 0, phase: Step::EXHAUSTED, spare: 0 }
    }
}

impl Total {
    pub fn of(answer: Answer<usize>) -> Total {
        let (value, Refusal { number, file, place }) = split(answer);
        Total { count: value.unwrap_or(0), place, number, file }
    }
}

impl Traversal {
    pub fn of(answer: Answer<Summed>) -> Traversal {
        let (value, Refusal { number, file, place }) = split(answer);
        let Summed { commits, highest, lowest, most, counts } = value.unwrap_or(Summed::NONE);
        Traversal { most, place, number, file, commits, highest, lowest, counts, spare: 0 }
    }
}

impl Opening {
    pub fn of(answer: Answer<u32>) -> Opening {
        let (value, Refusal { number, file, place }) = split(answer);
        Opening { place, number, file, commits: value.unwrap_or(0), spare: 0 }
    }
}

impl Spot {
    pub fn of(answer: Answer<Located>) -> Spot {
        let (value, Refusal { number, file, place }) = split(answer);
        let Located { start, size, index, pos } = value.unwrap_or_default();
        Spot { start, size, place, number, file, index, pos }
    }
}

impl Verification {
    pub fn of(answer: Answer<Verified>) -> Verification {
        let (value, Refusal { number, file, place }) = split(answer);
        let Verified { commits, length, counts } = value.unwrap_or(Verified::NONE);
        let (cyclic, length) = (length.is_none().into(), length.unwrap_or(0));
        Verification { place, number, file, commits, cyclic, length, counts, spare: 0 }
    }
}
