//! Every question of document 01, asked of both sides on one input.

mod chain;
mod file;
mod forced;
mod refused;
mod verify;
mod walk;

pub mod names;

use crate::{
    answers::{Answer, Refusal},
    inputs::{Input, edges},
    judge,
    list::{self, RECORD},
    original::{
        chain::Chain,
        file::{Original, open_held},
    },
    port,
    rows::Row,
    seeded::Seeded,
    shapes::{Opened, Opening},
    tally::Tally,
};
use std::ops::Range;

/// Of so many positions all are asked, of more a sample with both ends.
const ALL: u32 = 200;

/// The positions to ask for where there are `n`: those inside, and some outside.
pub fn positions(n: u32, seeded: &mut Seeded) -> Vec<u32> {
    let mut asked: Vec<u32> = if n <= ALL {
        (0..n).collect()
    } else {
        let middle = (0..ALL / 2).map(|_| seeded.below(n as usize) as u32);
        (0..ALL / 4).chain(middle.collect::<Vec<_>>()).chain(n - ALL / 4..n).collect()
    };
    asked.extend([n, seeded.pick(&[n + 1, 0x7000_0000, 1 << 31]), u32::MAX]);
    asked
}

/// The ids to look for: those stored at these places, their neighbours, and others.
pub fn sought(bytes: &[u8], places: &[usize], seeded: &mut Seeded) -> Vec<[u8; 20]> {
    let mut ids = vec![[0; 20], [0xff; 20], seeded.bytes(), seeded.bytes()];
    for place in places {
        let id: [u8; 20] = bytes[*place..*place + 20].try_into().unwrap();
        let (mut above, mut below, mut other) = (id, id, seeded.bytes::<20>());
        above[19] = id[19].wrapping_add(1);
        below[19] = id[19].wrapping_sub(1);
        other[0] = id[0];
        ids.extend([id, above, below, other]);
    }
    ids
}

/// Ids of a wrong width.
pub const WIDTHS: [usize; 5] = [0, 1, 19, 21, 32];

/// The files of a chain that its list names, one range each.
fn cut(records: &[list::Record]) -> Vec<Range<usize>> {
    let mut at = 0;
    let part = |record: &list::Record| {
        at += record.length as usize;
        at - record.length as usize..at
    };
    records.iter().map(part).collect()
}

/// Every question on this input. The order of the refusals is document 01's: the list's are a plain reading of it, then each file as the crate opens it.
pub fn input(t: &mut Tally, seeded: &mut Seeded, input: &Input) {
    if t.is_done() {
        return;
    }
    t.begin(input);
    let lent = (&input.chain[..], &input.list[..]);
    let opened = match list::records(input.chain.len(), &input.list) {
        Err(refusal) => {
            t.row(listed(refusal, input));
            Err(refusal)
        }
        Ok(records) => files(t, seeded, input, &records),
    };
    let commits = opened.as_ref().map(Chain::commits).map_err(|r| *r);
    t.held("open", (), Opening::of(commits), port::open(lent));
    match opened {
        Err(refusal) => refused::everywhere(t, seeded, lent, refusal),
        Ok(chain) => chain::questions(t, seeded, lent, &chain),
    }
    verify::alone(t, lent);
}

/// Which row a refusal of the list is. Of over 256 files the crate makes a graph, and its verification refuses that at once (row 7).
fn listed(refusal: Refusal, input: &Input) -> Row {
    if refusal.number != 30 || input.list.is_empty() || input.list.len() % RECORD != 0 {
        return Row::Added;
    }
    if let Ok(chain) = verify::graph((&input.chain, &input.list), usize::MAX) {
        assert_eq!(verify::refused(&chain), Some(30), "the crate verifies at most 256 files");
    }
    Row::Files
}

/// Each file alone; then all of them as a chain, or the first refusal.
fn files(t: &mut Tally, seeded: &mut Seeded, input: &Input, records: &[list::Record]) -> Answer<Chain> {
    let mut opened: Vec<Answer<Original>> = Vec::new();
    for (part, record) in cut(records).into_iter().zip(records) {
        opened.push(file::questions(t, seeded, &input.chain[part], record));
    }
    let mut originals = Vec::new();
    for (k, file) in opened.into_iter().enumerate() {
        originals.push(file.map_err(|r| r.in_file(k))?);
    }
    Chain::new(originals).map_err(|stop| judge::number(t, stop))
}

/// Every question on one file of the largest size, without commits, and on a byte more. Over 1 GiB the crate opens what document 01 refuses (row 8).
pub fn large(t: &mut Tally, seeded: &mut Seeded, size: usize) {
    let input = edges::large(size);
    let lent = (&input.chain[..], &input.list[..]);
    t.begin(&Input { kind: input.kind, ..Input::default() });
    let said = open_held(input.chain.clone(), "commit-graph".as_ref());
    let said = judge::opened(t, lent.0, said);
    match list::records(size, lent.1) {
        Err(refusal) => {
            assert!(said.is_ok(), "the crate has no such limit");
            t.row(Row::Size);
            t.held("file open", size, Opened::of(Err(refusal)), port::file_open(lent.0));
            t.held("open", size, Opening::of(Err(refusal)), port::open(lent));
            refused::everywhere(t, seeded, lent, refusal);
            verify::alone(t, lent);
        }
        Ok(records) => {
            verify::traversal(t, lent.0, &records[0], &said);
            let chain = said.and_then(|file| Chain::new(vec![file]).map_err(|stop| judge::number(t, stop))).expect("a sound file");
            t.held("open", size, Opening::of(Ok(chain.commits())), port::open(lent));
            chain::questions(t, seeded, lent, &chain);
        }
    }
}
