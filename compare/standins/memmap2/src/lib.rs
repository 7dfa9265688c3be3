//! A stand-in for the crate memmap2, as far as the nine files call it: a map is the file read into memory.
//!
//! It is not that crate. `Mmap::from_bytes` is this stand-in's own, so that a file need not lie on a disk.

use std::{fs::File, io, io::Read, ops::Deref};

/// The bytes of a file.
pub struct Mmap(Vec<u8>);

impl Mmap {
    /// The stand-in's own: a map of these bytes. They are moved and not copied.
    pub fn from_bytes(bytes: Vec<u8>) -> Mmap {
        Mmap(bytes)
    }
}

impl Deref for Mmap {
    type Target = [u8];

    fn deref(&self) -> &[u8] {
        &self.0
    }
}

/// How to map: nothing can be chosen here.
#[derive(Default)]
pub struct MmapOptions;

impl MmapOptions {
    pub fn new() -> MmapOptions {
        MmapOptions
    }

    /// Reads the whole file.
    ///
    /// # Safety
    /// There is nothing to keep to. The nine files call it as an unsafe function, for a real map can change under its reader.
    pub unsafe fn map_copy_read_only(&self, mut file: &File) -> io::Result<Mmap> {
        let mut bytes = Vec::new();
        file.read_to_end(&mut bytes)?;
        Ok(Mmap(bytes))
    }
}
