//! A stand-in for the crate gix-chunk, as far as the nine files call it: the index of the chunks of a file.
//!
//! It is not that crate. It was written from git's gitformat-chunk(5), and for what is refused, and in which order, from document 01's
//! refusals 6 to 9. So a comparison with it says nothing on the crate's own chunk index.

pub mod file;

/// The name of a chunk.
pub type Id = [u8; 4];
