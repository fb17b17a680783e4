//! Handover keys, source document 003 as document 02 reads it (request 2).

use super::{accepted_by, Order, Refusal};
use crate::bytes::Bytes;
use crate::openssl::{hmac_sha1, sha256, SHA1_DIGEST};

pub const RRK: usize = 64;
pub const KEY: usize = 32;
pub const NAME: usize = 16;
pub const ID: usize = 16;
pub const SPA: usize = 6;

/// KDF-Length of section 5: as many bytes as `bits` has, under a key, from a label and a context.
pub fn kdf(key: &[u8], label: &[u8], context: &[u8], bits: u16) -> Vec<u8> {
    let mut result = Vec::new();
    for i in 1..=bits.div_ceil(8 * SHA1_DIGEST as u16) {
        result.extend(hmac_sha1(key, &iteration(label, context, bits, i)));
    }
    result.truncate(usize::from(bits) / 8);
    result
}

/// What iteration i hands to HMAC. Numbers have two bytes, low byte first, as in IEEE 802.11.
pub fn iteration(label: &[u8], context: &[u8], bits: u16, i: u16) -> Vec<u8> {
    [&i.to_le_bytes()[..], label, &[0], context, &bits.to_le_bytes()].concat()
}

/// An R0-Key of section 4.2, under the first 32 bytes of the rRK.
#[derive(Clone, Debug)]
pub struct R0Key {
    pub rrk: Bytes,
    pub ad_id: Bytes,
    pub spa: Bytes,
    pub room: usize,
}

impl R0Key {
    pub fn tests(&self) -> Order {
        vec![(33, self.rrk.len() != RRK), (34, self.ad_id.len() != ID || self.spa.len() != SPA), (6, self.room < KEY)]
    }

    pub fn key(&self) -> Result<Vec<u8>, Refusal> {
        accepted_by(&self.tests())?;
        let context = [&self.ad_id[..], &self.spa[..]].concat();
        Ok(kdf(&self.rrk[..32], b"R0 Key derivation", &context, 256))
    }
}

/// An R1-Key of section 4.3.
#[derive(Clone, Debug)]
pub struct R1Key {
    pub r0_key: Bytes,
    pub ad_id: Bytes,
    pub an_id: Bytes,
    pub spa: Bytes,
    pub room: usize,
}

impl R1Key {
    pub fn tests(&self) -> Order {
        let ids = [&self.ad_id, &self.an_id];
        vec![
            (33, self.r0_key.len() != KEY),
            (34, ids.iter().any(|id| id.len() != ID) || self.spa.len() != SPA),
            (6, self.room < KEY),
        ]
    }

    pub fn key(&self) -> Result<Vec<u8>, Refusal> {
        accepted_by(&self.tests())?;
        let context = [&self.ad_id[..], &self.an_id[..], &self.spa[..]].concat();
        Ok(kdf(&self.r0_key, b"R1 Key derivation", &context, 256))
    }
}

/// The R0Name of section 4.2: the first 128 bits of SHA-256 over R0-Key, "R0 Key Name", AD-ID and SPA.
#[derive(Clone, Debug)]
pub struct R0Name {
    pub r0_key: Bytes,
    pub ad_id: Bytes,
    pub spa: Bytes,
    pub room: usize,
}

impl R0Name {
    pub fn tests(&self) -> Order {
        vec![
            (33, self.r0_key.len() != KEY),
            (34, self.ad_id.len() != ID || self.spa.len() != SPA),
            (6, self.room < NAME),
        ]
    }

    pub fn name(&self) -> Result<Vec<u8>, Refusal> {
        accepted_by(&self.tests())?;
        let text = [&self.r0_key[..], b"R0 Key Name", &self.ad_id[..], &self.spa[..]].concat();
        Ok(sha256(&text)[..NAME].to_vec())
    }
}
