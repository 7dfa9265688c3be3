//! What is timed: the same work on both sides, and the same answers.

use crate::{
    clock::both,
    port,
    read::{Chain, opened},
    shapes::Record,
    table::Table,
};
use gix_commitgraph::{File, Position, file};
use gix_hash::{Kind, ObjectId, hasher};
use std::{convert::Infallible, hint::black_box};

/// Opening. The crate owns its bytes, so copies are made beforehand and dropped afterwards.
pub fn opening(table: &mut Table, chain: &Chain) {
    let mut maps: Vec<_> = (0..5).map(|_| chain.maps()).collect();
    let mut kept = Vec::new();
    let original = || {
        kept.push(opened(maps.pop().expect("a copy for each run")));
        kept.last().unwrap().num_commits()
    };
    let times = both(5, original, || port::open(chain.lent()).commits);
    table.row("open", 1, times);
}

pub fn verification(table: &mut Table, chain: &Chain) {
    let graph = chain.graph();
    let original = || {
        let outcome = graph.verify_integrity(|_| Ok::<_, Infallible>(())).expect("a sound chain");
        (outcome.num_commits, outcome.longest_path_length)
    };
    let verified = || {
        let v = port::verify(chain.lent());
        assert_eq!(v.number, 0, "a sound chain");
        (v.commits, (v.cyclic == 0).then_some(v.length))
    };
    table.row("verify whole", 1, both(5, original, verified));
}

pub fn digest(table: &mut Table, chain: &Chain) {
    let bytes = &chain.bytes;
    let original = || {
        let mut state = hasher(Kind::Sha1);
        state.update(bytes);
        state.try_finalize().expect("a digest").as_bytes().to_vec()
    };
    table.row("SHA-1 of all bytes", 1, both(15, original, || port::sha1(bytes).bytes.to_vec()));
}

pub fn traversal(table: &mut Table, chain: &Chain) {
    let (map, path) = chain.maps().remove(0);
    let file = File::new(map, path).expect("a sound file");
    let original = || {
        let outcome = file.traverse(|_| Ok(())).expect("a sound file");
        (outcome.num_commits, outcome.max_generation, outcome.min_generation)
    };
    let traversed = || {
        let t = port::file_traverse(chain.lent());
        (t.commits, t.highest, t.lowest)
    };
    table.row("traverse", 1, both(5, original, traversed));
}

/// How many lookups, and of how many positions the commits are asked through the whole chain.
const SAMPLE: u32 = 50_000;

/// Positions without a pattern.
fn sample(commits: u32) -> impl Iterator<Item = u32> {
    (0..SAMPLE).scan(12_345u64, move |state, _| {
        *state = state.wrapping_mul(6_364_136_223_846_793_005).wrapping_add(1_442_695_040_888_963_407);
        Some(((*state >> 33) % u64::from(commits)) as u32)
    })
}

fn record(bytes: &[u8]) -> Record {
    let opened = port::file_open(bytes);
    assert_eq!(opened.number, 0, "a sound file");
    opened.record
}

pub fn lookups(table: &mut Table, chain: &Chain) {
    let graph = chain.graph();
    let stored: Vec<[u8; 20]> = sample(chain.commits).map(|pos| graph.id_at(Position(pos)).as_bytes().try_into().unwrap()).collect();
    let absent: Vec<[u8; 20]> = stored.iter().map(|id| std::array::from_fn(|k| if k == 12 { !id[k] } else { id[k] })).collect();
    for (name, ids) in [("found", &stored), ("absent", &absent)] {
        let sum = |found: &mut dyn FnMut(&[u8; 20]) -> Option<u32>| ids.iter().filter_map(found).map(u64::from).sum::<u64>();
        let mut original = |id: &[u8; 20]| graph.lookup(ObjectId::Sha1(*id)).map(|pos| pos.0);
        let mut found = |id: &[u8; 20]| {
            let f = port::find(chain.lent(), id);
            (f.found == 1).then_some(f.pos)
        };
        table.row(&format!("lookup, {name}; the port opens each time"), SAMPLE, both(3, || sum(&mut original), || sum(&mut found)));
        if chain.files.len() == 1 {
            let f = record(&chain.bytes);
            let mut held = |id: &[u8; 20]| {
                let x = port::file_lookup(&chain.bytes, f, id);
                (x.found == 1).then_some(x.pos)
            };
            table.row(&format!("lookup, {name}; the port holds the record"), SAMPLE, both(3, || sum(&mut original), || sum(&mut held)));
        }
    }
}

/// The fields and parents of every commit by the files' own questions, and of a sample through the whole chain.
pub fn commits(table: &mut Table, chain: &Chain) {
    let files: Vec<File> = chain.maps().into_iter().map(|(map, path)| File::new(map, path).expect("a sound file")).collect();
    let records: Vec<Record> = chain.files.iter().map(|(_, bytes)| record(bytes)).collect();
    let every = |f: &mut dyn FnMut(usize, u32) -> u64| {
        let all = |k: usize| (0..files[k].num_commits()).map(move |pos| (k, pos));
        (0..files.len()).flat_map(all).map(|(k, pos)| f(k, pos)).fold(0u64, u64::wrapping_add)
    };
    let mut fields = |k: usize, pos: u32| {
        let c = files[k].commit_at(file::Position(pos));
        c.committer_timestamp() + u64::from(c.generation())
    };
    let mut told = |k: usize, pos: u32| {
        let c = port::file_commit(&chain.files[k].1, records[k], pos);
        c.time + u64::from(c.generation)
    };
    table.row("fields of each commit", chain.commits, both(3, || every(&mut fields), || every(&mut told)));
    let mut parents = |k: usize, pos: u32| {
        let walk = files[k].commit_at(file::Position(pos)).iter_parents();
        walk.map(|p| u64::from(p.expect("a parent").0)).sum::<u64>()
    };
    let mut listed = |k: usize, pos: u32| {
        let mut out = [0; 8];
        let total = port::file_list(&chain.files[k].1, records[k], pos, &mut out);
        out[..total.count].iter().map(|p| u64::from(*p)).sum::<u64>()
    };
    table.row("parents of each commit", chain.commits, both(3, || every(&mut parents), || every(&mut listed)));
    let graph = chain.graph();
    let whole = || sample(chain.commits).map(|pos| graph.commit_at(Position(pos)).committer_timestamp()).fold(0, u64::wrapping_add);
    let asked = || sample(chain.commits).map(|pos| port::commit(chain.lent(), pos).time).fold(0, u64::wrapping_add);
    table.row("fields of a commit of the chain; the port opens each time", SAMPLE, both(3, || black_box(whole()), || black_box(asked())));
}
