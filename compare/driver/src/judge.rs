//! From what the crate says to what is expected of the port: the known differences, and nothing else.

use crate::{
    answers::{Answer, Counts, Refusal, Summed, Verified},
    layout::Layout,
    original::{Said, Stop},
    rows::Row,
    tally::Tally,
};
use gix_commitgraph::{file::verify::Outcome as FileOutcome, verify::Outcome};

/// No refusal of document 01: the crate panicked, and no row says so. Whatever the port answers, it disagrees.
const UNKNOWN: u32 = 999;

/// What the crate says, where it panics at a position outside (row 6).
pub fn inside<T>(t: &mut Tally, said: Said<T>) -> Answer<T> {
    said.map_err(|stop| match stop {
        Stop::Panicked(panic) if panic.is_outside() => {
            t.row(Row::Outside);
            Refusal::plain(40)
        }
        other => number(t, other),
    })
}

/// A refusal, where the crate panics at a word of less than four bytes (row 5).
pub fn number(t: &mut Tally, stop: Stop) -> Refusal {
    match stop {
        Stop::Refused(number, place) => Refusal::at(number, place.unwrap_or(0)),
        Stop::Panicked(panic) if panic.is_cut() => {
            t.row(Row::EdgeCut);
            Refusal::plain(54)
        }
        Stop::Panicked(panic) => {
            println!("the crate panicked: {} ({})", panic.text, panic.source);
            Refusal::plain(UNKNOWN)
        }
    }
}

/// Opening one file: 20 comes before 21 and 22 (row 3).
pub fn opened<T>(t: &mut Tally, bytes: &[u8], said: Said<T>) -> Answer<T> {
    if matches!(said, Ok(_) | Err(Stop::Refused(21 | 22, _))) {
        if let Some(place) = Layout::read(bytes).and_then(|layout| layout.falls()) {
            t.row(Row::FanFalls);
            return Err(Refusal::at(20, place));
        }
    }
    said.map_err(|stop| number(t, stop))
}

/// Where a refusal of verification stands in document 01's order: the file, then its head or a commit, then the check.
fn order(r: Refusal) -> (u32, u64, u32) {
    let check = match r.number {
        60..=63 => return (r.file, 0, r.number),
        64..=67 => r.number,
        50..=54 | 68 => 68,
        _ => 69,
    };
    (r.file, r.place + 1, check)
}

/// The earlier of what the crate says and the first commit outside its bucket (row 4).
pub fn bucket<T>(t: &mut Tally, answer: Answer<T>, misplaced: Option<Refusal>) -> Answer<T> {
    match (&answer, misplaced) {
        (_, None) => answer,
        (Err(said), Some(first)) if order(*said) < order(first) => answer,
        (_, Some(first)) => {
            t.row(Row::Bucket);
            Err(first)
        }
    }
}

/// The table of counts, from the crate's map; one count for all above 64 (row 9).
fn counts(t: &mut Tally, map: impl Iterator<Item = (u32, u32)>) -> Counts {
    let mut table = [0; 66];
    for (parents, commits) in map {
        if parents > 64 {
            t.row(Row::Above64);
        }
        table[parents.min(65) as usize] += commits;
    }
    table
}

/// A traversal's sums. The crate leaves most parents at 0; it is the highest key of its map (row 1).
pub fn summed(t: &mut Tally, outcome: &FileOutcome) -> Summed {
    let most = outcome.parent_counts.keys().max().copied().unwrap_or(0);
    assert_eq!(outcome.max_parents, 0, "row 1 says that the crate never raises it");
    if most > 0 {
        t.row(Row::MostParents);
    }
    Summed {
        commits: outcome.num_commits,
        highest: outcome.max_generation,
        lowest: outcome.min_generation,
        most: most as usize,
        counts: counts(t, outcome.parent_counts.iter().map(|(k, v)| (*k, *v))),
    }
}

/// A verification's sums; no length is the word "cyclic" (row 9c).
pub fn verified(t: &mut Tally, outcome: &Outcome) -> Verified {
    if outcome.longest_path_length.is_none() {
        t.row(Row::Cyclic);
    }
    Verified {
        commits: outcome.num_commits,
        length: outcome.longest_path_length,
        counts: counts(t, outcome.parent_counts.iter().map(|(k, v)| (*k, *v))),
    }
}
