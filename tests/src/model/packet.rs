//! The MAC of a RADIUS packet, source document 004, section 3.3, as document 02 reads it (request 8).

use super::{accepted_by, wrong_root_key, Order, Refusal};
use crate::bytes::Bytes;
use crate::openssl::hmac_sha256;

/// The attribute has 52 bytes; the MAC's 32 stand from byte 20 on.
pub const ATTRIBUTE: usize = 52;
pub const MAC_AT: usize = 20;
pub const MAC: usize = 32;

/// A packet that is signed, or checked.
#[derive(Clone, Debug)]
pub struct Packet {
    pub key: Bytes,
    pub kind: u8,
    pub bytes: Bytes,
}

impl Packet {
    /// The attributes left to right, each by its offset, and whether all are whole: one that is shorter than 2 or past the end ends the walk.
    fn attributes(&self) -> (Vec<usize>, bool) {
        let (mut found, mut at) = (Vec::new(), 20);
        while at < self.bytes.len() {
            let size = self.bytes.get(at + 1).map_or(0, |&byte| byte as usize);
            if size < 2 || at + size > self.bytes.len() {
                return (found, false);
            }
            found.push(at);
            at += size;
        }
        (found, true)
    }

    /// Where the attributes of the type stand.
    fn places(&self) -> Vec<usize> {
        self.attributes().0.into_iter().filter(|&at| self.bytes[at] == self.kind).collect()
    }

    fn wrong_length(&self) -> bool {
        let len = self.bytes.len();
        !(20..=4096).contains(&len) || u16::from_be_bytes([self.bytes[2], self.bytes[3]]) as usize != len
    }

    fn wrong_attribute(&self) -> bool {
        match self.places()[..] {
            [at] => self.bytes[at + 1] != 52 || self.bytes[at + 2] != 0 || self.bytes[at + 3] != 2,
            _ => true,
        }
    }

    /// 1, 20, 35, 36, 37. A number that cannot be looked at, because the bytes that it speaks of are not there, does not count.
    pub fn tests(&self) -> Order {
        vec![
            (1, wrong_root_key(&self.key)),
            (20, self.kind == 0),
            (35, self.wrong_length()),
            (36, !self.attributes().1),
            (37, self.wrong_attribute()),
        ]
    }

    /// The writer's order, then 38, which counts only where the others pass.
    pub fn tests_and_mac(&self) -> Order {
        let mut order = self.tests();
        order.push((38, self.checked() == Err(38)));
        order
    }

    /// The packet signed: the MAC is over the packet with its own 32 bytes as zeros.
    pub fn signed(&self) -> Result<Vec<u8>, Refusal> {
        accepted_by(&self.tests())?;
        let at = self.places()[0] + MAC_AT;
        let mut packet = self.bytes.to_vec();
        packet[at..at + MAC].fill(0);
        let mac = hmac_sha256(&self.key, &packet);
        packet[at..at + MAC].copy_from_slice(&mac);
        Ok(packet)
    }

    /// The writer's order, then 38.
    pub fn checked(&self) -> Result<(), Refusal> {
        if self.signed()? == self.bytes[..] {
            Ok(())
        } else {
            Err(38)
        }
    }
}
