//! Ids: lent (`oid`) and owned (`ObjectId`).

use crate::Kind;
use std::{fmt, ops::Deref};

/// A lent id.
#[allow(non_camel_case_types)]
#[derive(Debug, Eq, Hash, Ord, PartialEq, PartialOrd)]
#[repr(transparent)]
pub struct oid {
    bytes: [u8],
}

impl oid {
    /// These bytes as an id: itself and no copy.
    pub fn from_bytes_unchecked(bytes: &[u8]) -> &oid {
        // An `oid` is a `[u8]` by another name (`repr(transparent)`), so the reference stays one to the same bytes.
        unsafe { &*(std::ptr::from_ref(bytes) as *const oid) }
    }

    pub fn as_bytes(&self) -> &[u8] {
        &self.bytes
    }

    pub fn first_byte(&self) -> u8 {
        self.bytes[0]
    }

    pub fn to_hex(&self) -> String {
        let digit = |n: u8| char::from(b"0123456789abcdef"[n as usize]);
        self.bytes.iter().flat_map(|b| [digit(b >> 4), digit(b & 15)]).collect()
    }

    /// Whether this is the id that was expected.
    pub fn verify(&self, expected: &oid) -> Result<(), verify::Error> {
        if self == expected { Ok(()) } else { Err(verify::Error) }
    }
}

impl fmt::Display for oid {
    fn fmt(&self, f: &mut fmt::Formatter<'_>) -> fmt::Result {
        f.write_str(&self.to_hex())
    }
}

impl AsRef<oid> for oid {
    fn as_ref(&self) -> &oid {
        self
    }
}

/// An id of one's own.
#[derive(Clone, Copy, Debug, Eq, Hash, Ord, PartialEq, PartialOrd)]
pub enum ObjectId {
    Sha1([u8; 20]),
}

/// Why hex digits are not an id.
#[derive(Debug)]
pub struct BadHex;

fn digit(byte: u8) -> Option<u8> {
    char::from(byte).to_digit(16).map(|n| n as u8)
}

impl ObjectId {
    /// Two hex digits a byte, of either case, and nothing else.
    pub fn from_hex(digits: &[u8]) -> Result<ObjectId, BadHex> {
        if digits.len() != 2 * Kind::Sha1.len_in_bytes() {
            return Err(BadHex);
        }
        let mut bytes = [0; 20];
        for (byte, pair) in bytes.iter_mut().zip(digits.chunks_exact(2)) {
            let (high, low) = (digit(pair[0]).ok_or(BadHex)?, digit(pair[1]).ok_or(BadHex)?);
            *byte = high << 4 | low;
        }
        Ok(ObjectId::Sha1(bytes))
    }
}

impl Deref for ObjectId {
    type Target = oid;

    fn deref(&self) -> &oid {
        let ObjectId::Sha1(bytes) = self;
        oid::from_bytes_unchecked(bytes)
    }
}

impl AsRef<oid> for ObjectId {
    fn as_ref(&self) -> &oid {
        self
    }
}

impl PartialEq<&oid> for ObjectId {
    fn eq(&self, other: &&oid) -> bool {
        **self == **other
    }
}

/// What `oid::verify` answers.
pub mod verify {
    use std::fmt;

    /// The id is not the one that was expected.
    #[derive(Debug)]
    pub struct Error;

    impl fmt::Display for Error {
        fn fmt(&self, f: &mut fmt::Formatter<'_>) -> fmt::Result {
            f.write_str("stand-in: the digest is not the one that was expected")
        }
    }

    impl std::error::Error for Error {}
}
