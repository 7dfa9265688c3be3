//! Every export on random and mutated inputs, between pages that nobody may touch. What is looked for is a read or a write outside, an answer
//! that points outside, a list that was written on refusal, and a question that does not end or answers twice in two ways.

use crate::{
    fence::{Fence, Side},
    inputs::{Files, Input, bytes, damage, edges, history},
    port,
    seeded::Seeded,
    shapes::{Entry, Part, Record, Total, Trailer},
};
use std::time::{Duration, Instant};

/// The largest input, and the longest parent list that is lent.
const ROOM: usize = 1 << 20;
const LIST: usize = 80;
const MARK: u32 = 0xeeee_eeee;

/// One buffer for each thing that is lent.
struct Fences {
    chain: Fence,
    list: Fence,
    id: Fence,
    out: Fence,
}

/// How often each question was asked.
#[derive(Default)]
struct Asked {
    inputs: u64,
    questions: u64,
}

fn side(s: &mut Seeded) -> Side {
    if s.once_in(3) { Side::Start } else { Side::End }
}

/// A number of any size, with those near a line as likely as others.
fn number(s: &mut Seeded) -> u64 {
    match s.below(6) {
        0 => s.below(8) as u64,
        1 => s.next() >> s.below(64),
        2 => u64::MAX - s.below(3) as u64,
        3 => (1 << s.below(64)) - s.below(2) as u64,
        4 => 1100 + s.below(200) as u64,
        _ => s.next(),
    }
}

/// A position: inside, near the end, or anywhere.
fn position(s: &mut Seeded, commits: u32) -> u32 {
    match s.below(4) {
        0 => number(s) as u32,
        1 => commits.wrapping_add(s.below(3) as u32).wrapping_sub(1),
        _ => s.below(commits.max(1) as usize) as u32,
    }
}

/// A record that no file gave, or one with a field changed.
fn forged(s: &mut Seeded, mut f: Record) -> Record {
    for _ in 0..s.between(1, 3) {
        let n = number(s);
        match s.below(10) {
            0 => f.width = n as usize,
            1 => f.oidf = n as usize,
            2 => f.oidl = n as usize,
            3 => f.cdat = n as usize,
            4 => f.edge = n as usize,
            5 => f.edge_size = n as usize,
            6 => f.base = n as usize,
            7 => f.commits = n as u32,
            8 => f.bases = n as u32,
            _ => f.has_edge = n as u32,
        }
    }
    f
}

/// A part that is answered lies in the bytes that were lent.
fn inside(part: Part, size: usize) {
    assert!(part.at.checked_add(part.size).is_some_and(|end| end <= size), "a part inside: {part:?} of {size}");
    assert!(part.number == 0 || part.size == 0, "no part where it is refused: {part:?}");
}

/// What marks where something stands: the word of a step's parent, a commit's date, the trailer, an entry of the index.
fn marks(s: &mut Seeded, bytes: &[u8], f: Record, pos: u32, phase: (u32, usize)) -> u64 {
    let step = port::file_step(bytes, f, pos, phase);
    let word = port::file_word(bytes, f, pos, phase);
    inside(word, bytes.len());
    assert_eq!(word.size, if step.kind == 0 { 4 } else { 0 }, "a word where a parent is: {word:?} {step:?}");
    let stored = bytes[word.at..word.at + word.size].iter().fold(0, |n, byte| n << 8 | u32::from(*byte));
    assert_eq!(stored & 0x7fff_ffff, step.parent, "the parent's word: {word:?}");
    inside(port::file_date(bytes, f, pos), bytes.len());
    port::file_entry(bytes, f, pos);
    let Trailer { at, size, place, number, file, .. } = port::trailer(bytes);
    inside(Part { at, size, place, number, file }, bytes.len());
    let Entry { at, size, place, number, file, .. } = port::entry(bytes, position(s, 5));
    inside(Part { at, size, place, number, file }, bytes.len());
    6
}

/// A refused list is as it was, and so is what stands behind the last parent.
fn kept(total: Total, out: &[u32]) {
    let written = if total.number == 0 { total.count } else { 0 };
    assert!(out[written..].iter().all(|entry| *entry == MARK), "a list that keeps its entries: {total:?}");
}

/// The questions on one file, by its own record or by a forged one.
fn single(s: &mut Seeded, bytes: &[u8], list: &[u8], id: &[u8], out: &mut Fence) -> u64 {
    let opened = port::file_open(bytes);
    assert_eq!(opened, port::file_open(bytes), "the same answer twice");
    let f = if s.once_in(2) { forged(s, opened.record) } else { opened.record };
    let pos = position(s, f.commits);
    let phase = (s.below(5) as u32, number(s) as usize);
    for part in [port::file_id(bytes, f, pos), port::file_tree(bytes, f, pos), port::file_checksum(bytes, f)] {
        inside(part, bytes.len());
    }
    inside(port::file_base(bytes, f, position(s, f.bases)), bytes.len());
    inside(port::chunk(bytes, &s.pick(&[*b"OIDF", *b"OIDL", *b"CDAT", *b"EDGE", *b"BASE", [0; 4], *b"XTRA"])), bytes.len());
    port::file_verify_checksum(bytes, f);
    port::file_lookup(bytes, f, id);
    port::file_commit(bytes, f, pos);
    let marked = marks(s, bytes, f, pos, phase);
    port::file_count(bytes, f, pos);
    let lent = out.words(s.below(LIST + 1), MARK, Side::End);
    kept(port::file_list(bytes, f, pos, lent), lent);
    port::file_traverse((bytes, list));
    port::sha1(bytes);
    port::name(id);
    port::name(list);
    16 + marked
}

/// The questions on a chain.
fn whole(s: &mut Seeded, lent: port::Lent, id: &[u8], out: &mut Fence) -> u64 {
    let opening = port::open(lent);
    assert_eq!(opening, port::open(lent), "the same answer twice");
    let pos = position(s, opening.commits);
    let phase = (s.below(5) as u32, number(s) as usize);
    for part in [port::id(lent, pos), port::tree(lent, pos)] {
        inside(part, lent.0.len());
    }
    let spot = port::locate(lent, pos);
    assert!(spot.start + spot.size <= lent.0.len(), "a file inside");
    port::find(lent, id);
    port::commit(lent, pos);
    assert_eq!(port::step(lent, pos, phase), port::door(lent, pos, phase), "both doors");
    let words = out.words(s.below(LIST + 1), MARK, side(s));
    kept(port::list(lent, pos, words), words);
    let verified = port::verify(lent);
    assert_eq!(verified, port::verify(lent), "the same answer twice");
    12
}

/// Bytes put anywhere, without a thought for the format.
fn scribble(s: &mut Seeded, bytes: &mut Vec<u8>) {
    for _ in 0..s.below(4) {
        if bytes.is_empty() {
            return;
        }
        let at = s.below(bytes.len());
        match s.below(5) {
            0 => bytes[at] = s.next() as u8,
            1 => bytes.truncate(at),
            2 => bytes.insert(at, s.next() as u8),
            3 => bytes[at] ^= 1 << s.below(8),
            _ => {
                let word = number(s).to_be_bytes();
                let end = (at + 8).min(bytes.len());
                bytes[at..end].copy_from_slice(&word[..end - at]);
            }
        }
    }
}

/// An input: a sound chain, one spoiled with care, one that was scribbled on, or noise.
fn input(s: &mut Seeded, sound: &[Files]) -> Input {
    let fresh = s.once_in(3).then(|| history::shape(s)).map(|shape| history::chain(s, shape));
    let files = fresh.unwrap_or_else(|| sound[s.below(sound.len())].clone());
    let mut made = if s.once_in(8) { files.input("sound") } else { damage::chain(s, &files) };
    if s.once_in(3) {
        scribble(s, &mut made.chain);
        scribble(s, &mut made.list);
    }
    if s.once_in(20) {
        made.chain = (0..s.below(4000)).map(|_| s.next() as u8).collect();
    }
    made.chain.truncate(ROOM);
    made.list.truncate(ROOM);
    made
}

/// An id: of the chain, of another width, or noise.
fn id(s: &mut Seeded, chain: &[u8]) -> Vec<u8> {
    let size = if s.once_in(4) { s.below(64) } else { 20 };
    let at = s.below(chain.len().saturating_sub(size).max(1));
    chain.get(at..at + size).map_or_else(|| vec![s.next() as u8; size], <[u8]>::to_vec)
}

fn one(s: &mut Seeded, fences: &mut Fences, made: &Input) -> u64 {
    let chain = fences.chain.bytes(&made.chain, side(s));
    let list = fences.list.bytes(&made.list, side(s));
    let asked = id(s, &made.chain);
    let id = fences.id.bytes(&asked, side(s));
    single(s, chain, list, id, &mut fences.out) + whole(s, (chain, list), id, &mut fences.out)
}

/// Asks for so many seconds. It ends the program where something is wrong; the same seed comes to the same input again.
pub fn run(seconds: u64, seed: u64) {
    println!("fuzzing: {seconds} s with seed {seed}");
    let mut s = Seeded::new(seed);
    let mut fences = Fences { chain: Fence::new(ROOM), list: Fence::new(ROOM), id: Fence::new(ROOM), out: Fence::new(4 * LIST) };
    let mut sound = vec![bytes::small()];
    sound.extend((0..20).map(|_| history::shape(&mut s)).collect::<Vec<_>>().into_iter().map(|shape| history::chain(&mut s, shape)));
    let mut asked = Asked::default();
    let lines = edges::all();
    let end = Instant::now() + Duration::from_secs(seconds);
    while Instant::now() < end {
        let made = if asked.inputs < lines.len() as u64 { lines[asked.inputs as usize].clone() } else { input(&mut s, &sound) };
        asked.questions += one(&mut s, &mut fences, &made);
        asked.inputs += 1;
    }
    println!("fuzzing: {} inputs, {} questions, nothing outside", asked.inputs, asked.questions);
}

/// Lends a byte more than there is, to see that the pages are watched: this must not come to its end.
pub fn outside() -> bool {
    let mut fence = Fence::new(ROOM);
    let bytes = fence.one_too_many(&[0; 100]);
    println!("outside: {:?}", port::sha1(bytes));
    true
}
