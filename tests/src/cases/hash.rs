//! SHA-256 and HMAC-SHA-256 on every length of message and key.

use crate::bytes::Bytes;
use crate::call::{bytes_or_refusal, Call, Expected, Group};
use crate::ffi::{self, Outcome};
use crate::guard::Lender;
use crate::model::{accepted_by, Refusal};
use crate::openssl::{self, DIGEST};

/// Lengths at which the padding of FIPS 180-4 takes another form.
const PADDING_EDGES: [usize; 10] = [0, 1, 54, 55, 56, 63, 64, 65, 119, 120];

#[derive(Clone, Debug)]
pub struct Sha256 {
    pub message: Bytes,
    pub room: usize,
}

#[derive(Clone, Debug)]
pub struct HmacSha256 {
    pub key: Bytes,
    pub message: Bytes,
    pub room: usize,
}

impl Call for Sha256 {
    type Answer = Outcome;

    fn expected(&self) -> Expected<Outcome> {
        bytes_or_refusal(if_room(self.room, || openssl::sha256(&self.message)))
    }

    fn run(&self, lender: &mut Lender) -> Outcome {
        let message = lender.bytes("message", &self.message);
        let out = lender.room(self.room);
        // SAFETY: all of it is lent.
        unsafe { ffi::kv_sha256(message.pointer, message.len, out.pointer, out.len) }
    }
}

impl Call for HmacSha256 {
    type Answer = Outcome;

    fn expected(&self) -> Expected<Outcome> {
        bytes_or_refusal(if_room(self.room, || openssl::hmac_sha256(&self.key, &self.message)))
    }

    fn run(&self, lender: &mut Lender) -> Outcome {
        let key = lender.bytes("key", &self.key);
        let message = lender.bytes("message", &self.message);
        let out = lender.room(self.room);
        // SAFETY: all of it is lent.
        unsafe { ffi::kv_hmac_sha256(key.pointer, key.len, message.pointer, message.len, out.pointer, out.len) }
    }
}

/// 6 is the only refusal of both.
fn if_room(room: usize, digest: impl Fn() -> [u8; DIGEST]) -> Result<Vec<u8>, Refusal> {
    accepted_by(&vec![(6, room < DIGEST)])?;
    Ok(digest().to_vec())
}

pub fn sha256(group: &mut Group) {
    for len in 0..=5000 {
        let message = group.rng.bytes(len).into();
        group.compare(&Sha256 { message, room: DIGEST });
    }
    for len in PADDING_EDGES {
        for byte in [0x00, 0x80, 0xff] {
            group.compare(&Sha256 { message: vec![byte; len].into(), room: DIGEST });
        }
        for room in 0..=100 {
            let message = group.rng.bytes(len).into();
            group.compare(&Sha256 { message, room });
        }
    }
    for len in [65_535, 65_536, 1 << 20] {
        let message = group.rng.bytes(len).into();
        group.compare(&Sha256 { message, room: DIGEST });
    }
}

pub fn hmac_sha256(group: &mut Group) {
    for key_len in 0..=300 {
        for len in PADDING_EDGES {
            hmac_of(group, key_len, len, DIGEST);
        }
    }
    for len in 0..=4000 {
        let key_len = group.rng.between(0, 300);
        hmac_of(group, key_len, len, DIGEST);
    }
    for room in 0..=100 {
        for key_len in [0, 1, 63, 64, 65, 128, 300] {
            hmac_of(group, key_len, 0, room);
            hmac_of(group, key_len, 77, room);
        }
    }
}

fn hmac_of(group: &mut Group, key_len: usize, len: usize, room: usize) {
    let key = group.rng.bytes(key_len).into();
    let message = group.rng.bytes(len).into();
    group.compare(&HmacSha256 { key, message, room });
}
