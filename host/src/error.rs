//! Why something was not answered: a refusal with its number, file and place, or a file that could not be read.

use crate::{Id, Position, refusal, refusal::Place, shapes::Told};
use std::{
    fmt,
    path::{Path, PathBuf},
};

/// A refusal of the proved code. `path` is the file it is about, `commit` the commit, where it is about one.
#[derive(Clone, Debug, Eq, PartialEq)]
pub struct Refused {
    pub number: u32,
    pub file: u32,
    pub place: u64,
    pub path: Option<PathBuf>,
    pub commit: Option<(Position, Id)>,
}

/// A file or folder that could not be read, and why.
#[derive(Clone, Debug, Eq, PartialEq)]
pub struct Unread {
    pub path: PathBuf,
    pub why: String,
}

#[derive(Clone, Debug, Eq, PartialEq)]
pub enum Error {
    Refused(Refused),
    Unread(Unread),
    /// The caller's own processor ended a traversal, with these words.
    Stopped(String),
}

impl Refused {
    pub(crate) fn new(told: Told) -> Refused {
        Refused { number: told.number, file: told.file, place: told.place, path: None, commit: None }
    }

    /// A few words on what it is.
    pub fn title(&self) -> &'static str {
        refusal::meaning(self.number).map_or("unknown refusal", |m| m.title)
    }

    /// What it means, in plain English.
    pub fn sentence(&self) -> &'static str {
        refusal::meaning(self.number).map_or("No refusal with this number is known here.", |m| m.sentence)
    }

    /// What stands at the place, in words; empty where the place says nothing.
    pub fn spot(&self) -> String {
        let noun = refusal::meaning(self.number).map_or(Place::Nothing, |m| m.place).noun();
        match &self.commit {
            _ if noun.is_empty() => String::new(),
            Some((pos, id)) => format!("{noun} {} (position {pos}, id {id})", self.place),
            None => format!("{noun} {}", self.place),
        }
    }
}

impl Unread {
    /// The number that the system puts behind its words is left out.
    pub(crate) fn new(path: &Path, why: impl ToString) -> Unread {
        let why = why.to_string();
        Unread { path: path.to_owned(), why: why.split(" (os error").next().unwrap_or_default().to_owned() }
    }
}

impl Error {
    pub(crate) fn unread(path: &Path, why: impl ToString) -> Error {
        Error::Unread(Unread::new(path, why))
    }

    /// The refusal, where it is one.
    pub fn refused(&self) -> Option<&Refused> {
        match self {
            Error::Refused(r) => Some(r),
            _ => None,
        }
    }

    pub fn number(&self) -> Option<u32> {
        self.refused().map(|r| r.number)
    }
}

impl From<Told> for Error {
    fn from(told: Told) -> Error {
        Error::Refused(Refused::new(told))
    }
}

/// A path on one line: what is not plain text in it is shown by its number.
pub fn plain(path: &Path) -> String {
    let mut text = String::new();
    for chunk in std::os::unix::ffi::OsStrExt::as_bytes(path.as_os_str()).utf8_chunks() {
        for c in chunk.valid().chars() {
            if c.is_control() { text.extend(c.escape_default()) } else { text.push(c) }
        }
        chunk.invalid().iter().for_each(|b| text.push_str(&format!("\\x{b:02x}")));
    }
    text
}

impl fmt::Display for Refused {
    fn fmt(&self, f: &mut fmt::Formatter<'_>) -> fmt::Result {
        write!(f, "refused {} ({})", self.number, self.title())?;
        if let Some(path) = &self.path {
            write!(f, ": {}", plain(path))?;
        }
        let spot = self.spot();
        if !spot.is_empty() {
            write!(f, ": {spot}")?;
        }
        write!(f, ": {}", self.sentence())
    }
}

impl fmt::Display for Error {
    fn fmt(&self, f: &mut fmt::Formatter<'_>) -> fmt::Result {
        match self {
            Error::Refused(r) => r.fmt(f),
            Error::Unread(u) => write!(f, "could not read {}: {}", plain(&u.path), u.why),
            Error::Stopped(why) => write!(f, "stopped by the caller: {why}"),
        }
    }
}

impl std::error::Error for Error {}
impl std::error::Error for Refused {}
