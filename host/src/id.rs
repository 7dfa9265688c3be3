//! An id: the 20 bytes that name a commit or a tree, and their hexadecimal digits.

use std::{fmt, str::FromStr};

#[derive(Clone, Copy, Eq, Hash, Ord, PartialEq, PartialOrd)]
pub struct Id([u8; 20]);

/// The text was not 40 hexadecimal digits.
#[derive(Clone, Copy, Debug, Eq, PartialEq)]
pub struct NotHex;

impl Id {
    pub const fn new(bytes: [u8; 20]) -> Id {
        Id(bytes)
    }

    /// The id in these bytes, if they are 20.
    pub fn from_bytes(bytes: &[u8]) -> Option<Id> {
        bytes.try_into().ok().map(Id)
    }

    pub fn from_hex(text: &[u8]) -> Result<Id, NotHex> {
        let digits: Vec<u8> = text.iter().map(|c| (*c as char).to_digit(16).map(|d| d as u8).ok_or(NotHex)).collect::<Result<_, _>>()?;
        if digits.len() != 40 {
            return Err(NotHex);
        }
        let mut bytes = [0; 20];
        for (byte, pair) in bytes.iter_mut().zip(digits.chunks_exact(2)) {
            *byte = pair[0] * 16 + pair[1];
        }
        Ok(Id(bytes))
    }

    pub fn as_bytes(&self) -> &[u8] {
        &self.0
    }

    pub fn to_hex(&self) -> String {
        self.to_string()
    }
}

impl AsRef<Id> for Id {
    fn as_ref(&self) -> &Id {
        self
    }
}

impl FromStr for Id {
    type Err = NotHex;

    fn from_str(text: &str) -> Result<Id, NotHex> {
        Id::from_hex(text.as_bytes())
    }
}

impl fmt::Display for Id {
    fn fmt(&self, f: &mut fmt::Formatter<'_>) -> fmt::Result {
        const DIGITS: &[u8; 16] = b"0123456789abcdef";
        let mut text = [0; 40];
        for (pair, byte) in text.chunks_exact_mut(2).zip(self.0) {
            pair[0] = DIGITS[usize::from(byte >> 4)];
            pair[1] = DIGITS[usize::from(byte & 15)];
        }
        f.pad(std::str::from_utf8(&text).unwrap_or_default())
    }
}

impl fmt::Debug for Id {
    fn fmt(&self, f: &mut fmt::Formatter<'_>) -> fmt::Result {
        write!(f, "Id({self})")
    }
}

impl fmt::Display for NotHex {
    fn fmt(&self, f: &mut fmt::Formatter<'_>) -> fmt::Result {
        f.write_str("an id has 40 hexadecimal digits")
    }
}

impl std::error::Error for NotHex {}
