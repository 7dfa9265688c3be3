//! Random damage of every structure of a file: header, index, chunks and their sizes, words, trailer.

use super::parts::Parts;
use crate::seeded::Seeded;

const NAMES: [[u8; 4]; 7] = [*b"OIDF", *b"OIDL", *b"CDAT", *b"EDGE", *b"BASE", *b"XTRA", [0; 4]];

/// Words that lie on a line that some rule draws.
const WORDS: [u32; 14] =
    [0, 1, 2, 3, 5, 8, 0x6fff_ffff, 0x7000_0000, 0x7000_0001, 0x8000_0000, 0x8000_0001, 0x8000_0003, 0x8000_0200, 0xffff_ffff];

/// Puts a word at a place, if it fits.
pub fn put(bytes: &mut [u8], at: usize, word: u32) {
    if let Some(place) = bytes.get_mut(at..at + 4) {
        place.copy_from_slice(&word.to_be_bytes());
    }
}

pub fn get(bytes: &[u8], at: usize) -> u32 {
    bytes.get(at..at + 4).map_or(0, |w| u32::from_be_bytes(w.try_into().unwrap()))
}

/// A place below `n`, or 0.
pub fn place(s: &mut Seeded, n: usize) -> usize {
    s.below(n.max(1))
}

/// A number near to this one, or far from it.
pub fn near(s: &mut Seeded, n: u64) -> u64 {
    match s.below(8) {
        0 => n.wrapping_add(1),
        1 => n.wrapping_sub(1),
        2 => n.wrapping_add(20),
        3 => n.wrapping_sub(20),
        4 => n.wrapping_add(36),
        5 => n.wrapping_sub(4),
        6 => 0,
        _ => s.next() >> s.below(64),
    }
}

/// Another size of one chunk, one chunk less, one more, or two in another order.
fn resize(s: &mut Seeded, parts: &mut Parts) {
    let id = s.pick(&NAMES[..5]);
    let at = s.between(0, parts.chunks.len());
    match s.below(6) {
        0 => parts.remove(&id),
        1 if parts.chunk(&id).is_none() => {
            let size = s.between(0, 41);
            parts.insert(at, id, vec![0; size]);
        }
        2 => parts.tail = s.pick(&[0, 1, 19, 21, 40]),
        3 if parts.chunks.len() > 1 => {
            let other = s.below(parts.chunks.len());
            parts.chunks.swap(0, other);
        }
        _ => {
            let change = s.pick(&[-36, -20, -4, -3, -2, -1, 1, 2, 3, 4, 20, 36]);
            if let Some(body) = parts.chunk(&id) {
                let size = body.len().saturating_add_signed(change);
                body.resize(size, 0x11);
            }
        }
    }
}

/// Another fan entry, or the entries from some place on one higher or lower.
fn fan(s: &mut Seeded, parts: &mut Parts) {
    let (from, to) = (s.below(256), s.between(1, 256));
    let change = s.pick(&[1, 1, u32::MAX, 2, 1 << 31]);
    let Some(body) = parts.chunk(b"OIDF") else { return };
    let to = if s.once_in(2) { from + 1 } else { to };
    for k in from..to {
        let word = get(body, 4 * k).wrapping_add(change);
        put(body, 4 * k, word);
    }
}

/// Ids swapped, repeated, zero, or with another byte.
fn ids(s: &mut Seeded, parts: &mut Parts) {
    let Some(body) = parts.chunk(b"OIDL") else { return };
    let count = body.len() / 20;
    if count == 0 {
        return;
    }
    let (a, b) = (20 * s.below(count), 20 * s.below(count));
    match s.below(4) {
        0 => (0..20).for_each(|k| body.swap(a + k, b + k)),
        1 => body.copy_within(a..a + 20, b),
        2 => body[a..a + 20].fill(0),
        _ => body[a + s.pick(&[0, 0, 19, 7])] = s.next() as u8,
    }
}

/// A tree, a parent word, a generation or a time of one commit.
fn row(s: &mut Seeded, parts: &mut Parts) {
    let Some(body) = parts.chunk(b"CDAT") else { return };
    let at = 36 * place(s, body.len() / 36);
    let word = if s.once_in(4) { s.below(12) as u32 } else { s.pick(&WORDS) };
    match s.below(6) {
        0 => body[at..].iter_mut().take(20).for_each(|b| *b = 0),
        1 => put(body, at + 20, word),
        2 | 3 => put(body, at + 24, word),
        4 => {
            let high = get(body, at + 28);
            let generation = s.pick(&[(high >> 2).wrapping_add(1), (high >> 2).wrapping_sub(1), 0, 0x3fff_ffff, 0x3fff_fffe]);
            put(body, at + 28, generation << 2 | high & 3);
        }
        _ => put(body, at + 32, s.next() as u32),
    }
}

/// A word of EDGE: another one, or the last bit turned.
fn edge(s: &mut Seeded, parts: &mut Parts) {
    let Some(body) = parts.chunk(b"EDGE") else { return };
    let at = 4 * place(s, body.len() / 4);
    let word = get(body, at);
    put(body, at, if s.once_in(2) { word ^ 0x8000_0000 } else { s.pick(&WORDS) });
}

fn base(s: &mut Seeded, parts: &mut Parts) {
    let Some(body) = parts.chunk(b"BASE") else { return };
    if !body.is_empty() {
        let at = s.below(body.len());
        body[at] ^= s.between(1, 255) as u8;
    }
}

/// A byte of the header, an id or an offset of the index.
fn head(s: &mut Seeded, file: &mut [u8]) {
    let entries = file.get(6).map_or(0, |c| *c as usize + 1);
    let at = 8 + 12 * place(s, entries);
    if file.len() < at + 12 {
        return;
    }
    match s.below(5) {
        0 => file[s.below(8)] = s.pick(&[0, 1, 2, 3, 4, 5, 6, 255]),
        1 => file[at..at + 4].copy_from_slice(&s.pick(&NAMES)),
        2 => {
            let other = 8 + 12 * place(s, entries - 1);
            file.copy_within(other..other + 4, at);
        }
        _ => {
            let offset = u64::from_be_bytes(file[at + 4..at + 12].try_into().unwrap());
            file[at + 4..at + 12].copy_from_slice(&near(s, offset).to_be_bytes());
        }
    }
}

/// Any byte, or the trailer.
fn anywhere(s: &mut Seeded, file: &mut Vec<u8>) {
    let at = place(s, file.len());
    match s.below(3) {
        0 => file.truncate(at),
        1 => file.extend([0; 3]),
        _ => file.get_mut(at).map_or((), |b| *b ^= s.between(1, 255) as u8),
    }
}

/// One change of one file.
pub fn spoil(s: &mut Seeded, file: &mut Vec<u8>) {
    let mut parts = Parts::read(file);
    match s.below(9) {
        0 => return head(s, file),
        1 => return anywhere(s, file),
        2 | 3 => resize(s, &mut parts),
        4 => fan(s, &mut parts),
        5 => ids(s, &mut parts),
        6 => row(s, &mut parts),
        7 => edge(s, &mut parts),
        _ => base(s, &mut parts),
    }
    if s.once_in(3) {
        row(s, &mut parts);
    }
    *file = parts.write();
}
