//! Traversal of one file, and verification of a chain.

use crate::{
    answers::{Answer, Refusal},
    judge,
    layout::Layout,
    list::{self, RECORD},
    original::{
        Said, Stop,
        chain::Chain,
        file::{Original, open},
        verify as original,
    },
    port::{self, Lent},
    shapes::{Traversal, Verification},
    tally::Tally,
};

/// Traversal of a file by its own record. Where the crate stopped at a commit, the calls before it tell which: it calls before it walks the parents.
pub fn traversal(t: &mut Tally, bytes: &[u8], named: &list::Record, opened: &Answer<Original>) {
    let answer = match opened {
        Err(refusal) => Err(*refusal),
        Ok(file) => {
            let counted = original::traverse(file);
            let answer = match counted.said {
                Ok(outcome) => Ok(judge::summed(t, &outcome)),
                Err(stop) => Err(placed(judge::number(t, stop), counted.calls)),
            };
            let first = Layout::read(bytes).and_then(|layout| layout.misplaced());
            judge::bucket(t, answer, first.map(|place| Refusal::at(66, place)))
        }
    };
    t.held("traverse", (), Traversal::of(answer), port::file_traverse((bytes, &named.bytes())));
}

fn placed(r: Refusal, calls: u32) -> Refusal {
    let place = match r.number {
        50..=54 => u64::from(calls) - 1,
        64..=67 => calls.into(),
        _ => r.place,
    };
    assert!(r.place == 0 || r.place == place, "the place that the crate names is the one it stopped at");
    Refusal { place, ..r }
}

/// Traversal of a chain whose list has not one record: 30, as document 01 says. Other lists were tried file by file.
pub fn alone(t: &mut Tally, lent: Lent) {
    if lent.1.len() != RECORD {
        let number = if lent.0.len() > list::MOST { 1 } else { 30 };
        t.held("traverse", "not one record", Traversal::of(Err(Refusal::plain(number))), port::file_traverse(lent));
    } else if let Err(refusal) = list::records(lent.0.len(), lent.1) {
        t.held("traverse", "refused list", Traversal::of(Err(refusal)), port::file_traverse(lent));
    }
}

/// Verification. A commit at which the crate stopped is told by the calls before it, for it calls when a commit has passed.
pub fn chain(t: &mut Tally, lent: Lent, chain: &Chain) {
    let counted = original::verify(chain);
    let answer = match counted.said {
        Ok(outcome) => Ok(judge::verified(t, &outcome)),
        Err(stop) => {
            let refusal = judge::number(t, stop);
            let of_file = (60..=63).contains(&refusal.number);
            Err(if of_file { at_file(lent, chain, refusal, counted.calls) } else { at_commit(chain, refusal, counted.calls) })
        }
    };
    let answer = judge::bucket(t, answer, misplaced(lent, chain));
    t.verdict(Verification::of(answer), port::verify(lent));
}

/// The number by which the crate refuses a chain.
pub fn refused(chain: &Chain) -> Option<u32> {
    match original::verify(chain).said {
        Err(Stop::Refused(number, _)) => Some(number),
        _ => None,
    }
}

/// The commit behind so many.
fn at_commit(chain: &Chain, r: Refusal, calls: u32) -> Refusal {
    let mut place = calls;
    for (k, file) in chain.files.iter().enumerate() {
        if place < file.commits {
            return Refusal::at(r.number, place.into()).in_file(k);
        }
        place -= file.commits;
    }
    panic!("a refusal behind the last commit");
}

/// The file whose own check failed: the last of the shortest front of the chain that the crate refuses.
fn at_file(lent: Lent, chain: &Chain, r: Refusal, calls: u32) -> Refusal {
    let mut passed = 0;
    for (k, file) in chain.files.iter().enumerate() {
        if passed == calls && refused(&graph(lent, k + 1).expect("a front of a chain")).is_some() {
            return r.in_file(k);
        }
        passed += file.commits;
    }
    panic!("a chain that is refused has a front that is refused");
}

/// The crate's graph of the first files of a chain.
pub fn graph(lent: Lent, files: usize) -> Said<Chain> {
    let records = list::any_records(lent.0.len(), lent.1).map_err(|r| Stop::Refused(r.number, None))?;
    let open_one = |(part, record): (_, &list::Record)| open(&lent.0[part], &record.path());
    let opened: Said<Vec<Original>> = super::cut(&records).into_iter().zip(&records).take(files).map(open_one).collect();
    Chain::new(opened?)
}

/// The first commit of the chain that is not in the fan bucket of its position.
fn misplaced(lent: Lent, chain: &Chain) -> Option<Refusal> {
    chain.files.iter().enumerate().find_map(|(k, file)| {
        let layout = Layout::read(&lent.0[file.start..file.start + file.size])?;
        Some(Refusal::at(66, layout.misplaced()?).in_file(k))
    })
}
