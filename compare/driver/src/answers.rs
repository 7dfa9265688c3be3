//! What is answered, as plain values.

/// Document 01's number of a refusal, the file's index and the place.
#[derive(Clone, Copy, Debug, Eq, PartialEq)]
pub struct Refusal {
    pub number: u32,
    pub file: u32,
    pub place: u64,
}

impl Refusal {
    pub const NONE: Refusal = Refusal { number: 0, file: 0, place: 0 };

    pub fn plain(number: u32) -> Refusal {
        Refusal { number, ..Refusal::NONE }
    }

    pub fn at(number: u32, place: u64) -> Refusal {
        Refusal { number, file: 0, place }
    }

    pub fn in_file(self, file: usize) -> Refusal {
        Refusal { file: file as u32, ..self }
    }

    /// Refusals 6 to 9 as one.
    pub fn grouped(self) -> Refusal {
        if (6..=9).contains(&self.number) { Refusal { number: 6, place: 0, ..self } } else { self }
    }
}

/// Bytes that are shown by their hex digits.
pub struct Hex<'a>(pub &'a [u8]);

impl std::fmt::Debug for Hex<'_> {
    fn fmt(&self, f: &mut std::fmt::Formatter<'_>) -> std::fmt::Result {
        self.0.iter().try_for_each(|byte| write!(f, "{byte:02x}"))
    }
}

pub type Answer<T> = Result<T, Refusal>;

/// A parent word as it is read: 0 and 0 for none, 1 and a position, 2 and an EDGE index.
pub type Word = (u32, u32);

/// A commit's fields.
#[derive(Clone, Copy, Debug, Default, Eq, PartialEq)]
pub struct Row {
    pub generation: u32,
    pub time: u64,
    pub first: Word,
    pub second: Word,
}

/// Which file has a position, where that file lies in the chain, and the position in it.
#[derive(Clone, Copy, Debug, Default, Eq, PartialEq)]
pub struct Located {
    pub start: usize,
    pub size: usize,
    pub index: u32,
    pub pos: u32,
}

/// Commits with 0 to 64 parents, and with more.
pub type Counts = [u32; 66];

/// What a traversal sums up.
#[derive(Clone, Copy, Debug, Eq, PartialEq)]
pub struct Summed {
    pub commits: u32,
    pub highest: u32,
    pub lowest: u32,
    pub most: usize,
    pub counts: Counts,
}

impl Summed {
    pub const NONE: Summed = Summed { commits: 0, highest: 0, lowest: 0, most: 0, counts: [0; 66] };
}

/// What an accepted chain's verification says; no length where a commit is its own ancestor.
#[derive(Clone, Copy, Debug, Eq, PartialEq)]
pub struct Verified {
    pub commits: u32,
    pub length: Option<u32>,
    pub counts: Counts,
}

impl Verified {
    pub const NONE: Verified = Verified { commits: 0, length: Some(0), counts: [0; 66] };
}
