//! Steps from a phase that the caller chooses: from the second word, and from any EDGE number.
//!
//! The crate's walk always starts at the first word. What it says from elsewhere is got from a copy of the file in which the commit's words are made
//! to lead there: the first a position, the second the stored one, or the EDGE number asked for. EDGE numbers that no word holds are a plain
//! reading of document 01.

use super::walk::{From, expected_step};
use crate::{
    answers::Refusal,
    layout::Layout,
    original::{
        file::{Original, open},
        walk::{Stride, walk},
    },
    port::{self, Lent},
    seeded::Seeded,
    shapes::{Record, Step},
    tally::Tally,
};
use gix_commitgraph::file::Position;

/// How many commits of a file are asked.
const COMMITS: usize = 2;

/// Numbers above those that a word holds.
const LARGE: [usize; 6] = [1 << 31, 1 << 32, 1 << 61, 1 << 62, 1 << 63, usize::MAX];

/// The step behind the first of a commit whose words are 0 and `second`.
fn behind_first(bytes: &[u8], cdat: usize, pos: u32, second: u32) -> Stride {
    let mut copy = bytes.to_vec();
    let at = cdat + 36 * pos as usize + 20;
    copy[at..at + 4].fill(0);
    copy[at + 4..at + 8].copy_from_slice(&second.to_be_bytes());
    let file = open(&copy, "copy".as_ref()).expect("a file that opens with other parent words too");
    walk(file.file.commit_at(Position(pos)))[1].clone()
}

fn stored_second(bytes: &[u8], cdat: usize, pos: u32) -> u32 {
    let at = cdat + 36 * pos as usize + 24;
    u32::from_be_bytes(bytes[at..at + 4].try_into().unwrap())
}

/// EDGE numbers to ask for: the ends, one inside, and the one that the commit names.
fn numbers(layout: &Layout, second: u32, seeded: &mut Seeded) -> Vec<u32> {
    let words = layout.chunk(b"EDGE").map_or(0, |at| at.len() / 4) as u32;
    let mut asked = vec![0, 1, words.saturating_sub(1), words, words + 1, second & 0x7fff_ffff, 0x7fff_ffff];
    asked.push(seeded.below(words as usize + 1) as u32);
    asked
}

/// Where to start, and what is expected there, of one commit. `at` has the file and the place of refusals.
fn expected(t: &mut Tally, seeded: &mut Seeded, bytes: &[u8], cdat: usize, at: Refusal) -> Vec<(From, Step)> {
    let pos = at.place as u32;
    let layout = Layout::read(bytes).expect("an index that was read before");
    let second = stored_second(bytes, cdat, pos);
    let stride = behind_first(bytes, cdat, pos, second);
    let mut all = vec![((1, 0), expected_step(t, &stride, at)), ((1, 9), expected_step(t, &stride, at))];
    for number in numbers(&layout, second, seeded) {
        let stride = behind_first(bytes, cdat, pos, 0x8000_0000 | number);
        all.push(((2, number as usize), expected_step(t, &stride, at)));
    }
    for number in LARGE {
        let refusal = if layout.edge_left(number).is_none() { 52 } else { 53 };
        all.push(((2, number), Step::refused(Refusal { number: refusal, ..at })));
    }
    all
}

fn some(commits: u32, seeded: &mut Seeded) -> Vec<u32> {
    let count = COMMITS.min(commits as usize);
    (0..count).map(|_| seeded.below(commits as usize) as u32).collect()
}

pub fn in_file(t: &mut Tally, seeded: &mut Seeded, bytes: &[u8], record: Record, file: &Original) {
    for pos in some(file.commits(), seeded) {
        let at = Refusal::at(0, pos.into());
        for (from, step) in expected(t, seeded, bytes, record.cdat, at) {
            t.held("file step", (pos, from), step, port::file_step(bytes, record, pos, from));
        }
    }
}

/// The same in file `k` of a chain, which starts at `start` and whose first position is `first`.
pub fn in_chain(t: &mut Tally, seeded: &mut Seeded, lent: Lent, bytes: &[u8], (k, first, commits): (usize, u32, u32)) {
    let cdat = Layout::read(bytes).expect("an index that was read before").record().cdat;
    for pos in some(commits, seeded) {
        let at = Refusal::at(0, pos.into()).in_file(k);
        for (from, step) in expected(t, seeded, bytes, cdat, at) {
            t.held("step", (first + pos, from), step, port::step(lent, first + pos, from));
            t.held("door", (first + pos, from), step, port::door(lent, first + pos, from));
        }
    }
}
