//! prf+ of RFC 4306 with HMAC-SHA-256.

use crate::openssl::hmac_sha256;

/// The first n bytes of T1, T2 and on; T1 = HMAC(K, S then 01), a later Ti = HMAC(K, T(i-1) then S then the byte i).
pub fn prf_plus(key: &[u8], text: &[u8], n: usize) -> Vec<u8> {
    let mut expansion: Vec<u8> = Vec::new();
    let mut block: Vec<u8> = Vec::new();
    let mut number = 0;
    while expansion.len() < n {
        number += 1;
        block = hmac_sha256(key, &[&block[..], text, &[number]].concat()).to_vec();
        expansion.extend(&block);
    }
    expansion.truncate(n);
    expansion
}
