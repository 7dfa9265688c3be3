//! Random damage of a chain: of one file, of the order of its files, of its list.

use super::{
    Files, Input,
    parts::{seal, seal_all},
    spoil::{get, near, place, put, spoil},
};
use crate::{list::RECORD, seeded::Seeded};

/// A byte of the list, its size, or the kind of a name.
fn spoil_list(s: &mut Seeded, list: &mut Vec<u8>) {
    let at = RECORD * place(s, list.len() / RECORD);
    match s.below(6) {
        0 => list.truncate(list.len().saturating_sub(s.between(1, 33))),
        1 => {
            let length = near(s, get(list, at).into());
            put(list, at, length as u32);
        }
        2 => put(list, at + 4, s.pick(&[0, 1, 2, 3, 256])),
        3 => list[at + 8 + s.below(20)] ^= s.between(1, 255) as u8,
        4 => list[at + 28 + s.below(4)] = s.next() as u8,
        _ => {
            put(list, at + 4, s.pick(&[0, 2]));
            list[at + 8..at + 28].fill(0);
        }
    }
}

/// Files left out, repeated, or in another order.
fn reorder(s: &mut Seeded, files: &mut Files) {
    let (a, b) = (s.below(files.0.len()), s.below(files.0.len()));
    match s.below(3) {
        0 => files.0.swap(a, b),
        1 if files.0.len() > 1 => drop(files.0.remove(a)),
        _ => {
            let copy = files.0[a].clone();
            files.0.insert(b, copy);
        }
    }
}

/// One file spoiled. What follows from other bytes is made right again as a rule, so that the damage itself is met.
fn spoil_one(s: &mut Seeded, files: &mut Files) {
    let file = s.below(files.0.len());
    let bytes = &mut files.0[file].0;
    spoil(s, bytes);
    match s.below(6) {
        0 => files.relist(),
        1 => {
            seal(bytes);
            files.0[file].1.length = files.0[file].0.len() as u32;
        }
        _ => seal_all(files),
    }
}

/// A copy of a sound chain with spoiled files, or with its files in another order.
pub fn files(s: &mut Seeded, sound: &Files) -> Files {
    let mut files = sound.clone();
    match s.below(12) {
        0 => reorder(s, &mut files),
        1 => {
            reorder(s, &mut files);
            seal_all(&mut files);
        }
        _ => spoil_one(s, &mut files),
    }
    files
}

/// The same with its list, which may be spoiled too.
pub fn chain(s: &mut Seeded, sound: &Files) -> Input {
    let mut input = files(s, sound).input("damage");
    if s.once_in(8) {
        input.kind = "damage of the list";
        spoil_list(s, &mut input.list);
    }
    input
}
