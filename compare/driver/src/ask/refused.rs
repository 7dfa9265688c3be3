//! A chain that does not open: every question answers that refusal, and a lent list keeps what it holds.

use crate::{
    answers::Refusal,
    port::{self, Lent},
    seeded::Seeded,
    shapes::{Commit, Found, Part, Spot, Step, Total, Verification},
    tally::Tally,
};

pub fn everywhere(t: &mut Tally, seeded: &mut Seeded, lent: Lent, r: Refusal) {
    for pos in [0, seeded.below(8) as u32, u32::MAX] {
        t.held("id", pos, Part::of(Err(r)), port::id(lent, pos));
        t.held("tree", pos, Part::of(Err(r)), port::tree(lent, pos));
        t.held("commit", pos, Commit::of(Err(r)), port::commit(lent, pos));
        t.held("locate", pos, Spot::of(Err(r)), port::locate(lent, pos));
        for from in [(0, 0), (1, 0), (2, 0), (2, 3), (3, 0), (4, 0)] {
            t.held("step", (pos, from), Step::refused(r), port::step(lent, pos, from));
            t.held("door", (pos, from), Step::refused(r), port::door(lent, pos, from));
        }
        let mut out = [7, 8, 9];
        t.held("parent list", pos, Total::of(Err(r)), port::list(lent, pos, &mut out));
        t.equal("what a parent list holds", pos, [7, 8, 9], out);
    }
    for width in [20, 0, 19, 32] {
        t.held("find", width, Found::of(Err(r)), port::find(lent, &vec![1; width]));
    }
    t.verdict(Verification::of(Err(r)), port::verify(lent));
}
