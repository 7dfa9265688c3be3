//! Names of files, near to `graph-` and 40 hex digits and `.graph`, and messages to hash.

use super::{sketch, trailer};
use crate::seeded::Seeded;

/// Two sound files with different trailers.
pub fn files() -> [Vec<u8>; 2] {
    let mut seeded = Seeded::new(11);
    let mut one = || {
        let commit = sketch::Commit { id: seeded.bytes(), tree: seeded.bytes(), parents: vec![], generation: 1, time: 1 };
        sketch::file(&[commit], &[]).write()
    };
    [one(), one()]
}

fn hex(bytes: &[u8]) -> String {
    bytes.iter().map(|b| format!("{b:02x}")).collect()
}

/// Digits in either case.
fn mixed(digits: &str, seeded: &mut Seeded) -> String {
    let upper = |c: char| if seeded.once_in(2) { c.to_ascii_uppercase() } else { c };
    digits.chars().map(upper).collect()
}

/// The middle of a name: the trailer of one of the files as a rule, spoiled now and then.
fn middle(files: &[Vec<u8>; 2], seeded: &mut Seeded) -> Vec<u8> {
    let known = trailer(&files[seeded.below(2)]);
    let digits = hex(&if seeded.once_in(4) { seeded.bytes() } else { known });
    let mut text = match seeded.below(3) {
        0 => digits,
        1 => digits.to_uppercase(),
        _ => mixed(&digits, seeded),
    }
    .into_bytes();
    let at = seeded.below(text.len());
    match seeded.below(10) {
        0 => text[at] = seeded.pick(b"gGzZ@`/:- .\0"),
        1 => text.truncate(at),
        2 => text.push(seeded.pick(b"0aA.g")),
        3 => text[at] = seeded.between(0x80, 0xff) as u8,
        4 => text.insert(at, b'f'),
        5 => text.extend(hex(&seeded.bytes::<12>()).into_bytes()),
        _ => (),
    }
    text.retain(|b| *b != b'/');
    text
}

pub fn name(files: &[Vec<u8>; 2], seeded: &mut Seeded) -> Vec<u8> {
    let head = seeded.pick(&["graph-", "graph-", "graph-", "graph-", "graph-", "Graph-", "graph", "", "graph--", "a-graph-"]);
    let tail = seeded.pick(&[".graph", ".graph", ".graph", ".graph", ".graph", ".Graph", "graph", "", ".graph.lock", ".graph.graph"]);
    [head.as_bytes(), &middle(files, seeded), tail.as_bytes()].concat()
}

/// Names that claim the trailers of the files, in small letters and in capital ones, and one digit short or too long.
pub fn claims(files: &[Vec<u8>; 2]) -> Vec<Vec<u8>> {
    let digits = files.iter().map(|bytes| hex(&trailer(bytes)));
    let middles = digits.flat_map(|text| [text.to_uppercase(), text[1..].to_owned(), format!("{text}0"), text]);
    middles.map(|text| format!("graph-{text}.graph").into_bytes()).collect()
}

/// Names that no generator is needed for.
pub const PLAIN: [&[u8]; 13] = [
    b"",
    b".",
    b"..",
    b"commit-graph",
    b"graph-.graph",
    b"graph.graph",
    b"graph-",
    b".graph",
    b"graph-graph",
    b"graph-x.graph",
    b"graph-\xff.graph",
    b"graph-0000000000000000000000000000000000000000.graph",
    b"graph-00000000000000000000000000000000000000000.graph",
];

/// A message whose length is around a multiple of the block's.
pub fn message(seeded: &mut Seeded) -> Vec<u8> {
    let size = 64 * seeded.between(0, 8) + seeded.between(0, 70);
    (0..size).map(|_| seeded.next() as u8).collect()
}

/// Messages with their published digests: of FIPS 180's examples, and of no bytes.
pub fn published() -> [(Vec<u8>, &'static str); 4] {
    let two_blocks = b"abcdbcdecdefdefgefghfghighijhijkijkljklmklmnlmnomnopnopq";
    [
        (Vec::new(), "da39a3ee5e6b4b0d3255bfef95601890afd80709"),
        (b"abc".to_vec(), "a9993e364706816aba3e25717850c26c9cd0d89d"),
        (two_blocks.to_vec(), "84983e441c3bd26ebaae4aa1f95129e5e54670f1"),
        (vec![b'a'; 1_000_000], "34aa973cd4c4daa4f61eeb2bdbad27316534016f"),
    ]
}
