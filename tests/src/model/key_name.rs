//! Key names, source document 001's NDF-64.

use super::{accepted_by, bad_label_byte, wrong_label_length, wrong_label_syntax, Order, Refusal};
use crate::bytes::Bytes;
use crate::openssl::sha256;

/// A name has 8 bytes.
pub const NAME: usize = 8;

#[derive(Clone, Debug)]
pub struct KeyName {
    pub session_id: Bytes,
    pub label: Bytes,
    pub room: usize,
}

impl KeyName {
    pub fn tests(&self) -> Order {
        vec![
            (9, !(1..=255).contains(&self.session_id.len())),
            (2, wrong_label_length(&self.label)),
            (3, bad_label_byte(&self.label).is_some()),
            (32, wrong_label_syntax(&self.label)),
            (6, self.room < NAME),
        ]
    }

    /// The first 8 bytes of SHA-256 over Session-ID then label.
    pub fn name(&self) -> Result<Vec<u8>, Refusal> {
        accepted_by(&self.tests())?;
        Ok(sha256(&[&self.session_id[..], &self.label[..]].concat())[..NAME].to_vec())
    }
}
