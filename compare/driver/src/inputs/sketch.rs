//! Files written from commits: ids in order, the fan that counts them, parent words, EDGE and BASE.

use super::parts::Parts;

pub const NONE: u32 = 0x7000_0000;
pub const EDGE: u32 = 0x8000_0000;

/// A commit: its parents are positions in the chain.
#[derive(Clone, Debug)]
pub struct Commit {
    pub id: [u8; 20],
    pub tree: [u8; 20],
    pub parents: Vec<u32>,
    pub generation: u32,
    pub time: u64,
}

/// The fan that counts the first bytes of these commits' ids.
pub fn fan(commits: &[Commit]) -> Vec<u8> {
    let up_to = |k: usize| commits.iter().filter(|c| usize::from(c.id[0]) <= k).count() as u32;
    (0..256).flat_map(|k| up_to(k).to_be_bytes()).collect()
}

/// The two parent words of a commit; more than two parents go to EDGE.
fn words(parents: &[u32], edge: &mut Vec<u8>) -> [u32; 2] {
    match parents {
        [] => [NONE, NONE],
        [first] => [*first, NONE],
        [first, second] => [*first, *second],
        [first, rest @ ..] => {
            let at = edge.len() as u32 / 4;
            for (k, parent) in rest.iter().enumerate() {
                let last = if k + 1 == rest.len() { EDGE } else { 0 };
                edge.extend((parent | last).to_be_bytes());
            }
            [*first, EDGE | at]
        }
    }
}

/// An entry of CDAT.
fn entry(commit: &Commit, edge: &mut Vec<u8>) -> Vec<u8> {
    let mut entry = commit.tree.to_vec();
    for word in words(&commit.parents, edge) {
        entry.extend(word.to_be_bytes());
    }
    let high = commit.generation << 2 | (commit.time >> 32) as u32;
    entry.extend(high.to_be_bytes());
    entry.extend((commit.time as u32).to_be_bytes());
    entry
}

/// The file of these commits, over files with these trailers.
pub fn file(commits: &[Commit], bases: &[[u8; 20]]) -> Parts {
    let mut edge = Vec::new();
    let ids = commits.iter().flat_map(|c| c.id).collect();
    let rows = commits.iter().flat_map(|c| entry(c, &mut edge)).collect();
    let mut chunks = vec![(*b"OIDF", fan(commits)), (*b"OIDL", ids), (*b"CDAT", rows)];
    if !edge.is_empty() {
        chunks.push((*b"EDGE", edge));
    }
    if !bases.is_empty() {
        chunks.push((*b"BASE", bases.concat()));
    }
    Parts::new(bases.len() as u8, chunks)
}
