//! Synthetic chains: histories without a pattern, in files whose chunks stand in any order.

use super::{
    Files,
    parts::Parts,
    sketch::{self, Commit},
    trailer,
};
use crate::seeded::Seeded;

/// How a chain is to be.
#[derive(Clone, Copy, Debug)]
pub struct Shape {
    pub files: usize,
    pub most_commits: usize,
    pub most_parents: usize,
}

/// A shape: small as a rule, with many parents or many commits now and then.
pub fn shape(seeded: &mut Seeded) -> Shape {
    Shape {
        files: seeded.pick(&[1, 1, 2, 2, 3, 4, 6]),
        most_commits: seeded.pick(&[0, 1, 3, 3, 6, 6, 12, 40]),
        most_parents: seeded.pick(&[1, 2, 2, 3, 5, 9, 70]),
    }
}

fn parents(seeded: &mut Seeded, known: usize, most: usize) -> Vec<u32> {
    if known == 0 || seeded.once_in(5) {
        return Vec::new();
    }
    let count = if seeded.once_in(3) { seeded.between(1, most) } else { seeded.between(1, 2.min(most)) };
    (0..count).map(|_| seeded.below(known) as u32).collect()
}

/// An id: now and then in a bucket with others, or one that an older file has.
fn id(seeded: &mut Seeded, older: &[[u8; 20]]) -> [u8; 20] {
    let mut id = seeded.bytes::<20>();
    if seeded.once_in(2) {
        id[0] = seeded.pick(&[0, 0, 1, 0x7f, 0xff]);
    }
    match older {
        [] => id,
        _ if seeded.once_in(12) => seeded.pick(older),
        _ => id,
    }
}

/// The parents of each commit of a file, by the order in which they were made; and the position of each commit by its id.
fn commits(seeded: &mut Seeded, shape: Shape, first: usize, older: &[[u8; 20]], generations: &mut Vec<u32>) -> Vec<Commit> {
    let count = seeded.between(0, shape.most_commits);
    let mut ids: Vec<[u8; 20]> = (0..count).map(|_| id(seeded, older)).collect();
    ids.sort();
    ids.dedup();
    let mut order: Vec<usize> = (0..ids.len()).collect();
    seeded.shuffle(&mut order);
    generations.resize(first + ids.len(), 0);
    let mut made: Vec<Option<Commit>> = vec![None; ids.len()];
    for (k, at) in order.iter().enumerate() {
        let known = parents(seeded, first + k, shape.most_parents);
        let place = |p: u32| if (p as usize) < first { p } else { (first + order[p as usize - first]) as u32 };
        let parents: Vec<u32> = known.into_iter().map(place).collect();
        let generation = 1 + parents.iter().map(|p| generations[*p as usize]).max().unwrap_or(0);
        generations[first + at] = generation;
        let time = if seeded.once_in(3) { seeded.next() % (1 << 34) } else { 1_600_000_000 + seeded.next() % 1000 };
        made[*at] = Some(Commit { id: ids[*at], tree: seeded.bytes(), parents, generation, time });
    }
    made.into_iter().flatten().collect()
}

/// Chunks in another order, unknown ones between them, an empty EDGE, and bytes before the first: all is allowed.
fn vary(seeded: &mut Seeded, parts: &mut Parts) {
    if seeded.once_in(3) {
        seeded.shuffle(&mut parts.chunks);
    }
    if seeded.once_in(4) {
        let at = seeded.between(0, parts.chunks.len());
        let size = seeded.between(0, 9);
        parts.insert(at, *b"XTRA", vec![seeded.next() as u8; size]);
    }
    if parts.chunk(b"EDGE").is_none() && seeded.once_in(6) {
        let at = seeded.between(0, parts.chunks.len());
        parts.insert(at, *b"EDGE", Vec::new());
    }
    if parts.chunk(b"BASE").is_none() && seeded.once_in(8) {
        parts.insert(0, *b"BASE", Vec::new());
    }
    if seeded.once_in(6) {
        parts.gap = seeded.between(1, 30);
    }
}

/// A sound chain.
pub fn chain(seeded: &mut Seeded, shape: Shape) -> Files {
    let mut files = Files::default();
    let (mut trailers, mut ids, mut generations) = (Vec::new(), Vec::new(), Vec::new());
    for _ in 0..shape.files {
        let commits = commits(seeded, shape, generations.len(), &ids, &mut generations);
        let mut parts = sketch::file(&commits, &trailers);
        vary(seeded, &mut parts);
        let bytes = parts.write();
        trailers.push(trailer(&bytes));
        ids.extend(commits.iter().map(|c| c.id));
        files.push(bytes, seeded.pick(&[0, 1, 1]));
    }
    files
}
