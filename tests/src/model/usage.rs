//! Usage keys, RFC 5295 as document 01 reads it.

use super::domain::ROOT_LABEL;
use super::prf::prf_plus;
use super::{accepted_by, bad_label_byte, wrong_label_length, wrong_label_syntax, wrong_root_key, Order, Refusal};
use crate::bytes::Bytes;

/// A usage request: an EMSK, a label, optional data, n and an output buffer.
#[derive(Clone, Debug)]
pub struct UsageKey {
    pub emsk: Bytes,
    pub label: Bytes,
    pub data: Bytes,
    pub n: u64,
    pub room: usize,
}

impl UsageKey {
    pub fn tests(&self) -> Order {
        vec![
            (1, wrong_root_key(&self.emsk)),
            (2, wrong_label_length(&self.label)),
            (3, bad_label_byte(&self.label).is_some()),
            (32, wrong_label_syntax(&self.label)),
            (31, &self.label[..] == ROOT_LABEL.as_bytes()),
            (4, self.data.len() > 2048),
            (5, !(1..=8160).contains(&self.n)),
            (6, (self.room as u64) < self.n),
        ]
    }

    pub fn key(&self) -> Result<Vec<u8>, Refusal> {
        accepted_by(&self.tests())?;
        Ok(prf_plus(&self.emsk, &text(&self.label, &self.data, self.n as u16), self.n as usize))
    }
}

/// S: label, one zero byte, optional data, then n as two bytes, high byte first.
pub fn text(label: &[u8], data: &[u8], n: u16) -> Vec<u8> {
    [label, &[0], data, &n.to_be_bytes()].concat()
}
