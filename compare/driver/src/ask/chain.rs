//! The questions on a chain that opens.

use super::{WIDTHS, forced, positions, sought, verify, walk};
use crate::{
    answers::{Answer, Hex, Located, Refusal},
    judge,
    original::chain::Chain,
    port::{self, Lent},
    rows::Row,
    seeded::Seeded,
    shapes::{Commit, Found, Part, Spot},
    tally::Tally,
};

pub fn questions(t: &mut Tally, seeded: &mut Seeded, lent: Lent, chain: &Chain) {
    let mut asked = positions(chain.commits(), seeded);
    let mut first = 0;
    for file in &chain.files {
        asked.extend([first, (first + file.commits).saturating_sub(1)]);
        first += file.commits;
    }
    asked.sort();
    asked.dedup();
    for pos in &asked {
        position(t, lent, chain, *pos);
    }
    lookups(t, seeded, lent, chain, &asked);
    chosen_phases(t, seeded, lent, chain);
    verify::chain(t, lent, chain);
}

/// The questions by a position.
fn position(t: &mut Tally, lent: Lent, chain: &Chain, pos: u32) {
    let (id, tree, commit, spot) = (chain.id(pos), chain.tree(pos), chain.commit(pos), chain.located(pos));
    let (id, tree) = (judge::inside(t, id), judge::inside(t, tree));
    let (commit, spot) = (judge::inside(t, commit), judge::inside(t, spot));
    t.held("id", pos, Part::of(id), port::id(lent, pos));
    t.held("tree", pos, Part::of(tree), port::tree(lent, pos));
    t.held("commit", pos, Commit::of(commit), port::commit(lent, pos));
    t.held("locate", pos, Spot::of(spot), port::locate(lent, pos));
    parents(t, lent, chain, pos, spot);
}

fn parents(t: &mut Tally, lent: Lent, chain: &Chain, pos: u32, spot: Answer<Located>) {
    let at = spot.map_or(Refusal::NONE, |s| Refusal::at(0, s.pos.into()).in_file(s.index as usize));
    let stored = spot.map(|_| chain.at(pos).expect("a position inside"));
    let walked = walk::expected(t, stored, at);
    walk::steps(t, "step", pos, &walked, |from| port::step(lent, pos, from));
    walk::steps(t, "door", pos, &walked, |from| port::door(lent, pos, from));
    walk::lists(t, "parent list", pos, &walked, |out| port::list(lent, pos, out));
}

fn lookups(t: &mut Tally, seeded: &mut Seeded, lent: Lent, chain: &Chain, asked: &[u32]) {
    let places: Vec<usize> = asked.iter().filter(|pos| **pos < chain.commits()).map(|pos| chain.id(*pos).unwrap()).collect();
    for id in sought(lent.0, &places, seeded) {
        let found = chain.find(&id);
        let found = judge::inside(t, found);
        t.held("find", Hex(&id), Found::of(found), port::find(lent, &id));
    }
    for width in WIDTHS {
        t.row(Row::Added);
        t.held("find", width, Found::of(Err(Refusal::plain(41))), port::find(lent, &vec![1; width]));
    }
}

/// Steps from phases that are chosen, in the first and the last file and one between.
fn chosen_phases(t: &mut Tally, seeded: &mut Seeded, lent: Lent, chain: &Chain) {
    let last = chain.files.len() - 1;
    let mut asked = vec![0, seeded.below(last + 1), last];
    asked.dedup();
    for k in asked {
        let file = chain.files[k];
        let first = chain.files[..k].iter().map(|f| f.commits).sum();
        let bytes = &lent.0[file.start..file.start + file.size];
        forced::in_chain(t, seeded, lent, bytes, (k, first, file.commits));
    }
}
