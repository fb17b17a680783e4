//! The keys of a domain, RFC 5295 and RFC 5296 as document 02 reads them (request 6).

use super::prf::prf_plus;
use super::visited::wrong_domain;
use super::{accepted_by, wrong_root_key, Order, Refusal};
use crate::bytes::Bytes;

/// The label of RFC 5295, section 4, which no usage request may have.
pub const ROOT_LABEL: &str = "dsrk@ietf.org";

/// The label of RFC 5296, section 4.1.
const REAUTH_LABEL: &str = "EAP Re-authentication Root Key@ietf.org";

/// Both keys have 64 bytes, and so has the parent of the second.
pub const KEY: usize = 64;

/// The root key of a domain under an EMSK.
#[derive(Clone, Debug)]
pub struct DomainRootKey {
    pub emsk: Bytes,
    pub domain: Bytes,
    pub room: usize,
}

impl DomainRootKey {
    pub fn tests(&self) -> Order {
        vec![(1, wrong_root_key(&self.emsk)), (8, wrong_domain(&self.domain)), (6, self.room < KEY)]
    }

    /// S: the label, one zero byte, the domain, then 64 as two bytes, high byte first.
    pub fn key(&self) -> Result<Vec<u8>, Refusal> {
        accepted_by(&self.tests())?;
        Ok(prf_plus(&self.emsk, &[ROOT_LABEL.as_bytes(), b"\0", &self.domain, &[0, 64]].concat(), KEY))
    }
}

/// The re-authentication root key under the root key of a domain.
#[derive(Clone, Debug)]
pub struct DomainReauthKey {
    pub dsrk: Bytes,
    pub room: usize,
}

impl DomainReauthKey {
    pub fn tests(&self) -> Order {
        vec![(1, self.dsrk.len() != KEY), (6, self.room < KEY)]
    }

    /// S: the label, one zero byte, then 64 as two bytes, high byte first.
    pub fn key(&self) -> Result<Vec<u8>, Refusal> {
        accepted_by(&self.tests())?;
        Ok(prf_plus(&self.dsrk, &[REAUTH_LABEL.as_bytes(), &[0, 0, 64]].concat(), KEY))
    }
}
