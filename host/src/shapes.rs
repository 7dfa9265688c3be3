//! The structs that the proved exports answer, field for field as crates/flat/src/lib.rt has them.

macro_rules! shape {
    ($(#[$doc:meta])* $name:ident { $($field:ident: $kind:ty),* $(,)? }) => {
        $(#[$doc])*
        #[repr(C)]
        #[derive(Clone, Copy, Debug, Eq, PartialEq)]
        pub struct $name { $(pub $field: $kind),* }
    };
}

macro_rules! refusing {
    ($($name:ident)*) => { $(impl Refuses for $name {
        fn told(&self) -> Told {
            Told { number: self.number, file: self.file, place: self.place }
        }
    })* };
}

/// A refusal as the exports tell it; number 0 where there is none.
#[derive(Clone, Copy, Debug, Eq, PartialEq)]
pub struct Told {
    pub number: u32,
    pub file: u32,
    pub place: u64,
}

/// An answer that may be a refusal.
pub trait Refuses: Copy {
    fn told(&self) -> Told;

    /// The answer, or the refusal in its place.
    fn answer(self) -> Result<Self, Told> {
        let told = self.told();
        if told.number == 0 { Ok(self) } else { Err(told) }
    }
}

shape!(Digest { bytes: [u8; 20] });
shape!(Name { kind: u32, hash: [u8; 20] });
shape!(
    /// What an opened file says of itself; it is handed back to the questions on the file.
    Record {
        width: usize, oidf: usize, oidl: usize, cdat: usize, edge: usize, edge_size: usize, base: usize,
        commits: u32, bases: u32, has_edge: u32, spare: u32,
    }
);
shape!(Opened { record: Record, place: u64, number: u32, file: u32 });
shape!(Asked { place: u64, number: u32, file: u32 });
shape!(
    /// The `size` bytes from `at` on.
    Part { at: usize, size: usize, place: u64, number: u32, file: u32 }
);
shape!(
    /// The chunk that an entry of the index names; id 0 where there is no such entry.
    Entry { at: usize, size: usize, place: u64, number: u32, file: u32, id: u32, spare: u32 }
);
shape!(
    /// The trailer, and 1 where it is right.
    Trailer { at: usize, size: usize, place: u64, number: u32, file: u32, right: u32, spare: u32 }
);
shape!(Found { place: u64, number: u32, file: u32, found: u32, pos: u32 });
shape!(
    /// The kind of a parent word: 0 none, 1 a position, 2 an index into EDGE.
    Commit {
        time: u64, place: u64, number: u32, file: u32, generation: u32,
        first_kind: u32, first: u32, second_kind: u32, second: u32, spare: u32,
    }
);
shape!(
    /// Kind 0 is a parent, 1 a refusal, 2 the end; the phase is the one after the step.
    Step { edge: usize, place: u64, number: u32, file: u32, kind: u32, parent: u32, phase: u32, spare: u32 }
);
shape!(Total { count: usize, place: u64, number: u32, file: u32 });
shape!(Traversal {
    most: usize,
    place: u64,
    number: u32,
    file: u32,
    commits: u32,
    highest: u32,
    lowest: u32,
    counts: [u32; 66],
    spare: u32,
});
shape!(Opening { place: u64, number: u32, file: u32, commits: u32, spare: u32 });
shape!(
    /// File `index` has the position, at `pos` there; it is the `size` bytes of the chain from `start` on.
    Spot { start: usize, size: usize, place: u64, number: u32, file: u32, index: u32, pos: u32 }
);
shape!(Verification { place: u64, number: u32, file: u32, commits: u32, cyclic: u32, length: u32, counts: [u32; 66], spare: u32 });

refusing!(Opened Asked Part Entry Trailer Found Commit Step Total Traversal Opening Spot Verification);
