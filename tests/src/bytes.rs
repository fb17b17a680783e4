//! Bytes that print in hexadecimal, so that a difference can be tried again from what the program prints.

use std::fmt;
use std::ops::{Deref, DerefMut};

/// What is printed of longer bytes.
const SHOWN: usize = 400;

#[derive(Clone, Default, PartialEq)]
pub struct Bytes(pub Vec<u8>);

impl From<&[u8]> for Bytes {
    fn from(bytes: &[u8]) -> Self {
        Bytes(bytes.to_vec())
    }
}

impl From<&str> for Bytes {
    fn from(text: &str) -> Self {
        text.as_bytes().into()
    }
}

impl From<Vec<u8>> for Bytes {
    fn from(bytes: Vec<u8>) -> Self {
        Bytes(bytes)
    }
}

impl Deref for Bytes {
    type Target = Vec<u8>;

    fn deref(&self) -> &Vec<u8> {
        &self.0
    }
}

impl DerefMut for Bytes {
    fn deref_mut(&mut self) -> &mut Vec<u8> {
        &mut self.0
    }
}

impl fmt::Debug for Bytes {
    fn fmt(&self, to: &mut fmt::Formatter<'_>) -> fmt::Result {
        write!(to, "{} bytes ", self.len())?;
        self.iter().take(SHOWN).try_for_each(|byte| write!(to, "{byte:02x}"))?;
        to.write_str(if self.len() > SHOWN { ".." } else { "" })
    }
}

/// The bytes that a text of hexadecimal digits stands for; spaces may stand between them.
pub fn hex(text: &str) -> Vec<u8> {
    let digits: Vec<u32> = text.chars().filter_map(|c| c.to_digit(16)).collect();
    digits.chunks(2).map(|pair| (pair[0] * 16 + pair[1]) as u8).collect()
}
