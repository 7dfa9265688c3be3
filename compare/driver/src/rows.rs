//! The known differences: rows of docs/DIFFERENCES.md, each applied where its own test says so, and counted.
//!
//! What is expected of the port is what the crate says, changed by these rows and by nothing else. The other rows of that page
//! cannot be met here: 2a and 6a are no inputs of the crate, 11 to 14 are decided by a stand-in, and 9a and 9b are the form of the table.

/// A row, by its number there.
#[derive(Clone, Copy, Debug, Eq, Ord, PartialEq, PartialOrd)]
pub enum Row {
    MostParents,
    NotUtf8,
    FanFalls,
    Bucket,
    EdgeCut,
    Outside,
    Files,
    Size,
    Above64,
    Cyclic,
    Added,
}

impl Row {
    pub const ALL: [Row; 11] = [
        Row::MostParents,
        Row::NotUtf8,
        Row::FanFalls,
        Row::Bucket,
        Row::EdgeCut,
        Row::Outside,
        Row::Files,
        Row::Size,
        Row::Above64,
        Row::Cyclic,
        Row::Added,
    ];

    /// The row's number, and what it is about.
    pub fn name(self) -> (&'static str, &'static str) {
        match self {
            Row::MostParents => ("1", "most parents"),
            Row::NotUtf8 => ("2", "a name that is not UTF-8"),
            Row::FanFalls => ("3", "refusal 20, a fan that falls"),
            Row::Bucket => ("4", "refusal 66, an id outside its bucket"),
            Row::EdgeCut => ("5", "refusal 54, where the crate panics"),
            Row::Outside => ("6", "refusal 40, where the crate panics"),
            Row::Files => ("7", "over 256 files"),
            Row::Size => ("8", "over 1 GiB"),
            Row::Above64 => ("9", "counts above 64 parents"),
            Row::Cyclic => ("9c", "no length"),
            Row::Added => ("10", "refusals 30 to 32, 41 and 55"),
        }
    }

    /// Whether the page has a row with this number.
    pub fn is_in(self, page: &str) -> bool {
        let start = format!("| {} |", self.name().0);
        page.lines().any(|line| line.starts_with(&start))
    }
}
