//! Names of files: whether the crate's traversal lets a file with such a name pass.

use crate::{
    answers::Hex,
    inputs::parts::digest,
    original::{Stop, file::open, verify::traverse},
    port,
    rows::Row,
    shapes::{Digest, Name},
    tally::Tally,
};
use std::{ffi::OsStr, os::unix::ffi::OsStrExt, path::Path};

/// Whether a name passes for a file with this trailer: a name of kind 0 always, of kind 1 if it claims the trailer, of kind 2 never.
fn passes(name: Name, trailer: &[u8]) -> bool {
    name.kind == 0 || name.kind == 1 && name.hash == trailer
}

/// Whether the crate lets this file pass under this name. The file has no other fault.
fn lets_pass(bytes: &[u8], name: &[u8]) -> bool {
    let file = open(bytes, Path::new(OsStr::from_bytes(name))).expect("a sound file");
    match traverse(&file).said {
        Ok(_) => true,
        Err(Stop::Refused(63, _)) => false,
        Err(other) => panic!("a sound file is refused: {other:?}"),
    }
}

/// Asks both sides of a name, with two sound files of different trailers. The port's hash bytes are zero but for kind 1.
pub fn name(t: &mut Tally, files: &[Vec<u8>; 2], name: &[u8]) {
    let got = port::name(name);
    for bytes in files {
        let trailer = &bytes[bytes.len() - 20..];
        let mut expected = lets_pass(bytes, name);
        if std::str::from_utf8(name).is_err() && name.starts_with(b"graph-") && name.ends_with(b".graph") {
            assert!(expected, "row 2 says that the crate lets such a name pass");
            t.row(Row::NotUtf8);
            expected = false;
        }
        t.equal("name", String::from_utf8_lossy(name), expected, passes(got, trailer));
    }
    let clean = got.kind < 3 && (got.kind == 1 || got.hash == [0; 20]);
    t.equal("name, its form", String::from_utf8_lossy(name), true, clean);
}

/// Asks both sides for the digest of a message. The crate's side is the stand-in's.
pub fn message(t: &mut Tally, bytes: &[u8]) {
    t.equal("sha1", bytes.len(), Digest { bytes: digest(bytes) }, port::sha1(bytes));
}

/// The stand-in's digest of a message is the published one.
pub fn published(t: &mut Tally, bytes: &[u8], hex: &str) {
    let shown = format!("{:?}", Hex(&digest(bytes)));
    t.equal("sha1, as published", bytes.len(), hex, &shown[..]);
}
