//! The keys of EAP-AKA', 3GPP TS 33.402 and RFC 5448 as document 02 reads them (request 11).

use super::prf::prf_plus;
use super::{accepted_by, Order, Refusal};
use crate::bytes::Bytes;
use crate::openssl::hmac_sha256;

/// K_encr 16, K_aut 32, K_re 32, MSK 64, EMSK 64.
pub const KEYS: usize = 208;

#[derive(Clone, Debug)]
pub struct AkaKeys {
    pub ck: Bytes,
    pub ik: Bytes,
    pub name: Bytes,
    pub sqn_xor_ak: Bytes,
    pub identity: Bytes,
    pub room: usize,
}

impl AkaKeys {
    pub fn tests(&self) -> Order {
        vec![
            (43, self.ck.len() != 16 || self.ik.len() != 16 || self.sqn_xor_ak.len() != 6),
            (44, self.name.len() > 1016),
            (45, !(1..=255).contains(&self.identity.len())),
            (6, self.room < KEYS),
        ]
    }

    /// TS 33.402, Annex A.2: FC = 20 hex, P0 = the name, L0, P1 = SQN xor AK, L1; CK' is the first half of the MAC, IK' the second.
    fn primes(&self) -> ([u8; 16], [u8; 16]) {
        let name_length = (self.name.len() as u16).to_be_bytes();
        let text = [&[0x20], &self.name[..], &name_length, &self.sqn_xor_ak, &[0, 6]].concat();
        let mac = hmac_sha256(&[&self.ck[..], &self.ik].concat(), &text);
        (mac[..16].try_into().expect("16 bytes"), mac[16..].try_into().expect("16 bytes"))
    }

    /// RFC 5448, section 3.3: MK = PRF'(IK'|CK', "EAP-AKA'"|Identity).
    pub fn keys(&self) -> Result<Vec<u8>, Refusal> {
        accepted_by(&self.tests())?;
        let (ck, ik) = self.primes();
        Ok(prf_plus(&[ik, ck].concat(), &[b"EAP-AKA'", &self.identity[..]].concat(), KEYS))
    }
}
