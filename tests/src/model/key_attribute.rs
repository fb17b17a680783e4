//! The RADIUS Key attribute, source document 004 section 3.1 as document 01 reads it.

use super::{accepted_by, Order, Refusal};
use crate::bytes::Bytes;
use crate::openssl::{unwrap, wrap, INITIAL_VALUE};

/// Bytes of the attribute before the wrapped key.
pub const WRAPPED_AT: usize = 52;

/// The attribute is so much longer than the key: 52 bytes before it and 8 that wrapping adds.
pub const OVERHEAD: usize = 60;

/// A key to be written.
#[derive(Clone, Debug)]
pub struct WriteKey {
    pub kind: u8,
    pub app_id: u32,
    pub kek_id: Bytes,
    pub key_id: Bytes,
    pub lifetime: u32,
    pub kek: Bytes,
    pub key: Bytes,
    pub room: usize,
}

impl WriteKey {
    pub fn tests(&self) -> Order {
        vec![
            (20, self.kind == 0),
            (21, self.kek_id.len() != 16 || self.key_id.len() != 16),
            (22, self.kek.len() != 16),
            (23, !is_key_length(self.key.len())),
            (6, self.room < OVERHEAD + self.key.len()),
        ]
    }

    pub fn attribute(&self) -> Result<Vec<u8>, Refusal> {
        accepted_by(&self.tests())?;
        Ok([
            &[self.kind, (OVERHEAD + self.key.len()) as u8, 0, 0],
            &self.app_id.to_be_bytes()[..],
            &self.kek_id,
            &self.key_id,
            &self.lifetime.to_be_bytes(),
            &INITIAL_VALUE,
            &wrap(&sixteen(&self.kek), &INITIAL_VALUE, &self.key),
        ]
        .concat())
    }
}

/// An attribute to be read.
#[derive(Clone, Debug)]
pub struct ReadKey {
    pub kek: Bytes,
    pub attribute: Bytes,
    pub room: usize,
}

/// What an accepted attribute holds.
#[derive(Clone, Debug, PartialEq)]
pub struct Fields {
    pub kind: u8,
    pub app_id: u32,
    pub kek_id: [u8; 16],
    pub key_id: [u8; 16],
    pub lifetime: u32,
    pub key: Bytes,
}

impl ReadKey {
    pub fn tests(&self) -> Order {
        let mut order = vec![(22, self.kek.len() != 16)];
        order.extend(frame(&self.attribute));
        order.extend([(6, self.room + OVERHEAD < self.attribute.len()), (28, self.spoilt())]);
        order
    }

    pub fn fields(&self) -> Result<Fields, Refusal> {
        accepted_by(&self.tests())?;
        let at = |from: usize, to: usize| &self.attribute[from..to];
        Ok(Fields {
            kind: self.attribute[0],
            app_id: number(at(4, 8)),
            kek_id: sixteen(at(8, 24)),
            key_id: sixteen(at(24, 40)),
            lifetime: number(at(40, 44)),
            key: self.unwrapped().ok_or(28u32)?.into(),
        })
    }

    /// 28: unwrapping does not yield the initial value. Under a KEK of another length, or of bytes that are not blocks
    /// of eight, there is no unwrapping to speak of.
    fn spoilt(&self) -> bool {
        let blocks = self.wrapped().chunks_exact(8);
        let whole = blocks.len() >= 3 && blocks.remainder().is_empty();
        self.kek.len() == 16 && whole && self.unwrapped().is_none()
    }

    fn wrapped(&self) -> &[u8] {
        self.attribute.get(WRAPPED_AT..).unwrap_or_default()
    }

    fn unwrapped(&self) -> Option<Vec<u8>> {
        unwrap(&sixteen(&self.kek), self.wrapped())
    }
}

/// The numbers of an attribute that need no KEK.
pub fn frame(attribute: &[u8]) -> Order {
    // whether the attribute has such a byte, and another than this stands there
    let is_not = |at: usize, byte: u8| attribute.get(at).is_some_and(|&found| found != byte);
    vec![
        (24, wrong_length(attribute)),
        (20, attribute.first() == Some(&0)),
        (25, is_not(2, 0)),
        (26, is_not(3, 0)),
        (27, (44..WRAPPED_AT).any(|at| is_not(at, 0xa6))),
    ]
}

/// 24: under 2 bytes, length byte unequal to the bytes lent, or not 60 plus a key's length.
fn wrong_length(attribute: &[u8]) -> bool {
    let lent = attribute.len();
    lent < OVERHEAD || usize::from(attribute[1]) != lent || !is_key_length(lent - OVERHEAD)
}

/// 23: a key to wrap has a multiple of 8 from 16 to 192 bytes.
fn is_key_length(len: usize) -> bool {
    (16..=192).step_by(8).any(|accepted| accepted == len)
}

fn sixteen(bytes: &[u8]) -> [u8; 16] {
    bytes.try_into().expect("checked to be 16 bytes")
}

/// A number of four bytes, high byte first.
fn number(bytes: &[u8]) -> u32 {
    bytes.iter().fold(0, |sum, &byte| sum << 8 | u32::from(byte))
}
