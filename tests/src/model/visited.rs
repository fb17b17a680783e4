//! Visited-domain keys, source document 001 as document 01 reads it.

use super::prf::prf_plus;
use super::{accepted_by, usage, wrong_root_key, Order, Refusal};
use crate::bytes::Bytes;

/// The label of source document 001, section 4.1.
const ROOT_LABEL: &str = "EAP Visited domain Root Key";

/// The label of source document 001, section 5.1.
const REAUTH_LABEL: &str = "EAP Re-authentication Root Key";

/// Every visited key has 64 bytes.
pub const KEY: usize = 64;

/// A key whose text is fixed: the VRK under an EMSK, the V-rRK under a VMSK.
#[derive(Clone, Debug)]
pub struct FixedTextKey {
    pub parent: Bytes,
    pub text: Bytes,
    pub room: usize,
}

impl FixedTextKey {
    pub fn tests(&self) -> Order {
        vec![(1, wrong_root_key(&self.parent)), (6, self.room < KEY)]
    }

    pub fn key(&self) -> Result<Vec<u8>, Refusal> {
        accepted_by(&self.tests())?;
        Ok(prf_plus(&self.parent, &self.text, KEY))
    }
}

/// S of the VRK: that of a usage key with the fixed label, no data and n = 64.
pub fn root_text() -> Bytes {
    usage::text(ROOT_LABEL.as_bytes(), &[], KEY as u16).into()
}

/// S of the V-rRK: the label alone.
pub fn reauth_text() -> Bytes {
    REAUTH_LABEL.into()
}

/// A VMSK: S is the server ID then the domain.
#[derive(Clone, Debug)]
pub struct MasterKey {
    pub vrk: Bytes,
    pub server_id: Bytes,
    pub domain: Bytes,
    pub room: usize,
}

impl MasterKey {
    pub fn tests(&self) -> Order {
        vec![
            (1, wrong_root_key(&self.vrk)),
            (7, wrong_server_id(&self.server_id)),
            (8, wrong_domain(&self.domain)),
            (6, self.room < KEY),
        ]
    }

    pub fn key(&self) -> Result<Vec<u8>, Refusal> {
        accepted_by(&self.tests())?;
        Ok(prf_plus(&self.vrk, &[&self.server_id[..], &self.domain[..]].concat(), KEY))
    }
}

/// 7: server ID not 1 to 255 bytes, or a byte of it outside 33 to 126.
fn wrong_server_id(id: &[u8]) -> bool {
    !(1..=255).contains(&id.len()) || id.iter().any(|byte| !(33..=126).contains(byte))
}

/// 8: domain not 1 to 253 bytes, or a byte not a letter, digit, hyphen or dot.
pub fn wrong_domain(domain: &[u8]) -> bool {
    let allowed = |byte: &u8| byte.is_ascii_alphanumeric() || *byte == b'-' || *byte == b'.';
    !(1..=253).contains(&domain.len()) || !domain.iter().all(allowed)
}
