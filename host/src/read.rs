//! Reading files whole, so that one that changes or shrinks afterwards cannot be noticed.

use crate::{Error, Refused, shapes::Told};
use std::{fs, io::Read, ops::Range, path::Path};

/// No more bytes than this are read, all files together.
pub const MOST: u64 = 1 << 30;
const SMALL: u64 = 1 << 20;

/// Refusal 1 about a file.
fn large(path: &Path) -> Error {
    let told = Told { number: 1, file: 0, place: 0 };
    Error::Refused(Refused { path: Some(path.to_owned()), ..Refused::new(told) })
}

/// Reads a file to the end of `into`, which keeps its length where that fails. For what is over 1 GiB nothing is set aside: it is refused.
pub fn whole(path: &Path, into: &mut Vec<u8>) -> Result<Range<usize>, Error> {
    let start = into.len();
    let read = append(path, into, MOST - start as u64);
    if read.is_err() {
        into.truncate(start);
    }
    read.map(|()| start..into.len())
}

fn append(path: &Path, into: &mut Vec<u8>, room: u64) -> Result<(), Error> {
    let unread = |e: std::io::Error| Error::unread(path, e);
    let size = regular(path)?;
    if size > room {
        return Err(large(path));
    }
    let file = fs::File::open(path).map_err(unread)?;
    into.try_reserve(size as usize + 1).map_err(|_| Error::unread(path, "there is not enough memory"))?;
    let read = file.take(room + 1).read_to_end(into).map_err(unread)?;
    if read as u64 > room { Err(large(path)) } else { Ok(()) }
}

/// The size of a file; what is no file, such as a pipe, is not opened.
fn regular(path: &Path) -> Result<u64, Error> {
    let found = fs::metadata(path).map_err(|e| Error::unread(path, e))?;
    if found.is_file() { Ok(found.len()) } else { Err(Error::unread(path, "it is not a file")) }
}

/// A short text, such as a chain file.
pub fn small(path: &Path) -> Result<Vec<u8>, Error> {
    regular(path)?;
    let mut text = Vec::new();
    let file = fs::File::open(path).map_err(|e| Error::unread(path, e))?;
    file.take(SMALL + 1).read_to_end(&mut text).map_err(|e| Error::unread(path, e))?;
    if text.len() as u64 > SMALL { Err(Error::unread(path, "it has more than 1 MiB, too many for a chain file")) } else { Ok(text) }
}
