//! The Rust crate's side. What is said here is the crate's own answer, but for what a stand-in decides.

pub mod chain;
pub mod file;
pub mod verify;
pub mod walk;

use crate::{
    answers::{Row, Word},
    caught::Panic,
};
use gix_commitgraph::file::Commit;

/// A refusal by its number, with the place where the crate says one; or a panic.
#[derive(Clone, Debug)]
pub enum Stop {
    Refused(u32, Option<u64>),
    Panicked(Panic),
}

pub type Said<T> = Result<T, Stop>;

impl From<Panic> for Stop {
    fn from(panic: Panic) -> Stop {
        Stop::Panicked(panic)
    }
}

impl Stop {
    pub fn by(texts: &[String]) -> Stop {
        let (number, place) = crate::texts::refusal(texts);
        Stop::Refused(number, place)
    }
}

/// The parent word that is shown behind a fragment.
fn word(shown: &str, fragment: &str) -> Word {
    let (_, rest) = shown.split_once(fragment).expect("a commit shows its parent words");
    let digits: String = rest.chars().skip_while(|c| c.is_ascii_alphabetic() || *c == '(').take_while(char::is_ascii_digit).collect();
    let kind = ["None", "GraphPosition", "ExtraEdgeIndex"].iter().position(|name| rest.starts_with(name));
    (kind.expect("a known kind of word") as u32, digits.parse().unwrap_or(0))
}

/// A commit's fields. The two parent words are private in the crate; they are read from what it shows of a commit.
pub fn row(commit: Commit<'_>) -> Row {
    let shown = format!("{commit:?}");
    Row {
        generation: commit.generation(),
        time: commit.committer_timestamp(),
        first: word(&shown, "parent1: "),
        second: word(&shown, "parent2: "),
    }
}
