//! Inputs on both sides of a line: the smallest file, many files, very large files, a commit that is its own ancestor, EDGE cut short.

use super::{
    Files, Input, damage,
    history::{self, Shape},
    parts::{Parts, seal},
    sketch::{self, Commit, EDGE},
    trailer,
};
use crate::{
    list::{MOST, Record},
    seeded::Seeded,
};

/// A commit with these parents and this generation.
fn commit(first: u8, parents: &[u32], generation: u32) -> Commit {
    Commit { id: [first; 20], tree: [1; 20], parents: parents.to_vec(), generation, time: 0 }
}

fn one(parts: &Parts) -> Input {
    let mut files = Files::default();
    files.push(parts.write(), 0);
    files.input("on a line")
}

/// The empty file, and one byte less or more.
fn smallest() -> Vec<Input> {
    let empty = one(&sketch::file(&[], &[]));
    let mut less = empty.clone();
    less.chain.pop();
    less.list[..4].copy_from_slice(&1099u32.to_be_bytes());
    let none = Input { kind: "on a line", ..Input::default() };
    vec![empty, less, none]
}

/// Commits that are their own ancestors, and generations at the highest number.
fn cyclic() -> Vec<Input> {
    let cap = 0x3fff_ffff;
    let chains: [&[Commit]; 6] = [
        &[commit(1, &[0], cap)],
        &[commit(1, &[0], 1)],
        &[commit(1, &[1], cap), commit(2, &[0], cap)],
        &[commit(1, &[1], cap - 1), commit(2, &[0], cap)],
        &[commit(1, &[], 1), commit(2, &[1, 0], cap), commit(3, &[1], cap)],
        &[commit(1, &[], 0)],
    ];
    chains.iter().map(|commits| one(&sketch::file(commits, &[]))).collect()
}

/// A commit whose second word leads into EDGE, with EDGE of every size from none to 13 bytes and a last word or not.
fn edge_sizes() -> Vec<Input> {
    let mut inputs = Vec::new();
    for size in 0..14 {
        for index in 0..4 {
            let mut parts = sketch::file(&[commit(1, &[], 1), commit(2, &[0, 0, 0], 2)], &[]);
            let cdat = parts.chunk(b"CDAT").unwrap();
            cdat[60..64].copy_from_slice(&(EDGE | index).to_be_bytes());
            *parts.chunk(b"EDGE").unwrap() = vec![0; size];
            inputs.push(one(&parts));
            if size >= 8 {
                parts.chunk(b"EDGE").unwrap()[4] = 0x80;
                inputs.push(one(&parts));
            }
        }
    }
    inputs
}

/// Two parent words of every kind together.
fn word_pairs() -> Vec<Input> {
    let words = [0, 1, 2, 0x6fff_ffff, 0x7000_0000, 0x7000_0001, 0x7fff_ffff, 0x8000_0000, 0x8000_0001, 0x8000_0002, 0xffff_ffff];
    let mut inputs = Vec::new();
    for first in words {
        for second in words {
            let mut parts = sketch::file(&[commit(1, &[], 1), commit(2, &[0, 0, 0], 2)], &[]);
            let cdat = parts.chunk(b"CDAT").unwrap();
            cdat[56..60].copy_from_slice(&u32::to_be_bytes(first));
            cdat[60..64].copy_from_slice(&u32::to_be_bytes(second));
            inputs.push(one(&parts));
        }
    }
    inputs
}

/// Merges with 63 to 70 parents.
fn many_parents() -> Vec<Input> {
    let merge = |n: usize| one(&sketch::file(&[commit(1, &[], 1), commit(2, &vec![0; n], 2)], &[]));
    (63..71).map(merge).collect()
}

/// The smallest inputs that show a known difference: a fan that falls, an id outside its bucket, one byte of EDGE, more than 64 parents.
fn differences() -> Vec<Input> {
    let mut falls = sketch::file(&[], &[]);
    falls.chunk(b"OIDF").unwrap()[3] = 1;
    let mut misplaced = sketch::file(&[commit(1, &[], 1)], &[]);
    misplaced.chunk(b"OIDF").unwrap()[7] = 0;
    let mut cut = sketch::file(&[commit(1, &[0, 0, 0], 1)], &[]);
    cut.chunk(b"EDGE").unwrap().truncate(1);
    let many = sketch::file(&[commit(1, &[0; 65], 0x3fff_ffff)], &[]);
    [falls, misplaced, cut, many].iter().map(one).collect()
}

/// A wrong trailer; names that claim another hash, or none that is one.
fn wrong_names() -> Vec<Input> {
    let sound = sketch::file(&[commit(1, &[], 1)], &[]).write();
    let mut wrong = sound.clone();
    *wrong.last_mut().unwrap() ^= 1;
    let list = |bytes: &[u8], kind, hash| Record { length: bytes.len() as u32, kind, hash }.bytes().to_vec();
    let input = |bytes: &[u8], kind, hash| Input { kind: "on a line", chain: bytes.to_vec(), list: list(bytes, kind, hash) };
    let right = trailer(&sound);
    vec![
        input(&wrong, 0, [0; 20]),
        input(&wrong, 1, trailer(&wrong)),
        input(&sound, 1, right),
        input(&sound, 1, trailer(&wrong)),
        input(&sound, 1, [0; 20]),
        input(&sound, 2, [0; 20]),
        input(&sound, 2, right),
        input(&sound, 0, right),
        input(&sound, 3, [0; 20]),
    ]
}

/// Empty files, one more than a chain may have.
fn too_many() -> Input {
    let mut files = Files::default();
    (0..257).for_each(|_| files.push(sketch::file(&[], &[]).write(), 0));
    files.input("257 files")
}

/// Chains of nearly as many files as there can be and of as many, sound and spoiled; and of one file more.
pub fn many_files(seeded: &mut Seeded) -> Vec<Input> {
    let mut inputs = vec![too_many()];
    for files in [255, 256] {
        let sound = history::chain(seeded, Shape { files, most_commits: 2, most_parents: 2 });
        inputs.push(sound.input("256 files"));
        inputs.push(Input { kind: "256 files", ..damage::chain(seeded, &sound) });
    }
    inputs
}

/// An empty file around so many bytes of an unknown chunk. Its trailer is right where it is read.
pub fn large(size: usize) -> Input {
    let mut parts = sketch::file(&[], &[]);
    parts.insert(3, *b"XTRA", Vec::new());
    let front = parts.write();
    let mut chain = vec![0; size];
    chain[..front.len() - 20].copy_from_slice(&front[..front.len() - 20]);
    chain[60..68].copy_from_slice(&(size as u64 - 20).to_be_bytes());
    if size <= MOST {
        seal(&mut chain);
    }
    let record = Record { length: size as u32, kind: 0, hash: [0; 20] };
    Input { kind: if size > MOST { "1 GiB and a byte" } else { "1 GiB" }, chain, list: record.bytes().to_vec() }
}

/// All that is small.
pub fn all() -> Vec<Input> {
    [smallest(), cyclic(), edge_sizes(), word_pairs(), many_parents(), differences(), wrong_names()].concat()
}
