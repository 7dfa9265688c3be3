//! The questions on one file.

use super::{WIDTHS, forced, positions, sought, verify, walk};
use crate::{
    answers::{Answer, Hex, Refusal},
    judge,
    layout::Layout,
    list,
    original::file::{Original, open},
    port,
    rows::Row,
    seeded::Seeded,
    shapes::{Asked, Commit, Found, Opened, Part, Record},
    tally::Tally,
};
use gix_commitgraph::file::Position;

/// Ids of chunks to ask for, known and unknown.
const CHUNKS: [&[u8; 4]; 9] = [b"OIDF", b"OIDL", b"CDAT", b"EDGE", b"BASE", b"GDA2", b"XXXX", b"oidf", &[0; 4]];

/// Opens the file and asks it everything; answers what the crate opened, or the refusal that is expected.
pub fn questions(t: &mut Tally, seeded: &mut Seeded, bytes: &[u8], named: &list::Record) -> Answer<Original> {
    let opened = judge::opened(t, bytes, open(bytes, &named.path()));
    let layout = Layout::read(bytes);
    let record = opened.as_ref().map(|file| described(file, layout.as_ref().unwrap())).map_err(|r| *r);
    t.held("file open", (), Opened::of(record), port::file_open(bytes));
    for id in CHUNKS {
        let told = port::chunk(bytes, id);
        match &layout {
            Some(layout) => t.equal("chunk", id, Part::chunk(layout.chunk(id)), told),
            None => t.equal("chunk of no index", id, (true, 0), ((6..=9).contains(&told.number), told.size)),
        }
    }
    verify::traversal(t, bytes, named, &opened);
    if let (Ok(file), Ok(record)) = (&opened, record) {
        parts(t, bytes, record, file);
        commits(t, seeded, bytes, record, file);
        lookups(t, seeded, bytes, record, file);
        forced::in_file(t, seeded, bytes, record, file);
    }
    opened
}

/// What the file says of itself: the crate's numbers, and the crate's places where it lends something from there. The rest is the stand-in's index.
fn described(file: &Original, layout: &Layout) -> Record {
    let mut record = layout.record();
    record.commits = file.commits();
    record.bases = file.file.base_graph_count().into();
    if record.commits > 0 {
        record.oidl = file.id(0).unwrap();
        record.cdat = file.tree(0).unwrap();
    }
    if let Some(first) = file.bases().first() {
        record.base = *first;
    }
    record
}

/// The trailer and the base ids.
fn parts(t: &mut Tally, bytes: &[u8], record: Record, file: &Original) {
    t.held("checksum", (), Part::of(Ok(file.checksum())), port::file_checksum(bytes, record));
    let sum = file.verify_checksum().map_err(|stop| judge::number(t, stop));
    t.held("verify checksum", (), Asked::of(sum), port::file_verify_checksum(bytes, record));
    let bases = file.bases();
    for j in (0..bases.len() as u32 + 2).chain([u32::MAX]) {
        let base = bases.get(j as usize).copied().ok_or(Refusal::plain(40));
        t.held("base id", j, Part::of(base), port::file_base(bytes, record, j));
    }
}

fn commits(t: &mut Tally, seeded: &mut Seeded, bytes: &[u8], record: Record, file: &Original) {
    for pos in positions(record.commits, seeded) {
        let (id, tree, commit) = (file.id(pos), file.tree(pos), file.commit(pos));
        let (id, tree, commit) = (judge::inside(t, id), judge::inside(t, tree), judge::inside(t, commit));
        t.held("file id", pos, Part::of(id), port::file_id(bytes, record, pos));
        t.held("file tree", pos, Part::of(tree), port::file_tree(bytes, record, pos));
        t.held("file commit", pos, Commit::of(commit), port::file_commit(bytes, record, pos));
        let at = Refusal::at(0, pos.into());
        let stored = commit.map(|_| file.file.commit_at(Position(pos)));
        let walked = walk::expected(t, stored, at);
        walk::steps(t, "file step", pos, &walked, |from| port::file_step(bytes, record, pos, from));
        walk::count(t, pos, &walked, port::file_count(bytes, record, pos));
        walk::lists(t, "file parent list", pos, &walked, |out| port::file_list(bytes, record, pos, out));
    }
}

fn lookups(t: &mut Tally, seeded: &mut Seeded, bytes: &[u8], record: Record, file: &Original) {
    let inside = positions(record.commits, seeded).into_iter().filter(|pos| *pos < record.commits);
    let places: Vec<usize> = inside.map(|pos| file.id(pos).unwrap()).collect();
    for id in sought(bytes, &places, seeded) {
        let found = file.lookup(&id);
        let found = judge::inside(t, found);
        t.held("file lookup", Hex(&id), Found::of(found), port::file_lookup(bytes, record, &id));
    }
    for width in WIDTHS {
        t.row(Row::Added);
        let refused = Found::of(Err(Refusal::plain(41)));
        t.held("file lookup", width, refused, port::file_lookup(bytes, record, &vec![1; width]));
    }
}
