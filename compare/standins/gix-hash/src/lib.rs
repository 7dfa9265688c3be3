//! A stand-in for the crate gix-hash, as far as the nine files call it: SHA-1, ids of 20 bytes, and their hex digits.
//!
//! It is not that crate. It was written from FIPS 180-4 and from what the nine files show of it. It knows SHA-1 alone (hash version 1), looks
//! for no collision attack, and reads exactly 40 hex digits of either case. So a comparison with it says nothing on how the crate itself answers these.

mod id;
mod sha1;

pub use id::{ObjectId, oid, verify};

/// The kinds of hash.
#[derive(Clone, Copy, Debug, Eq, Hash, Ord, PartialEq, PartialOrd)]
pub enum Kind {
    Sha1,
}

impl Kind {
    /// The kind with the shortest ids.
    pub const fn shortest() -> Kind {
        Kind::Sha1
    }

    pub const fn len_in_bytes(self) -> usize {
        20
    }

    /// The id of zeros.
    pub fn null_ref(self) -> &'static oid {
        oid::from_bytes_unchecked(&[0; 20])
    }
}

/// By the number of a hash version; the number itself where it is not known.
impl TryFrom<u8> for Kind {
    type Error = u8;

    fn try_from(version: u8) -> Result<Kind, u8> {
        if version == 1 { Ok(Kind::Sha1) } else { Err(version) }
    }
}

/// A digest that is being made.
pub struct Hasher(sha1::State);

/// Why there is no digest. This stand-in always has one.
pub type Never = std::convert::Infallible;

pub fn hasher(kind: Kind) -> Hasher {
    match kind {
        Kind::Sha1 => Hasher(sha1::State::new()),
    }
}

impl Hasher {
    pub fn update(&mut self, bytes: &[u8]) {
        self.0.update(bytes);
    }

    pub fn try_finalize(self) -> Result<ObjectId, Never> {
        Ok(ObjectId::Sha1(self.0.finish()))
    }
}
