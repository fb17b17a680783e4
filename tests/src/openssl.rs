//! The primitives, by OpenSSL's libcrypto: SHA-256, HMAC-SHA-256, HMAC-SHA-1 and AES-128 key wrap of RFC 3394.

use std::ffi::{c_int, c_uint, c_void};
use std::ptr;

pub const DIGEST: usize = 32;

pub const SHA1_DIGEST: usize = 20;

/// The initial value of RFC 3394, section 2.2.3.1.
pub const INITIAL_VALUE: [u8; 8] = [0xa6; 8];

/// OpenSSL's AES_KEY: 60 words of round keys and the count of rounds.
#[repr(C)]
struct AesKey {
    round_keys: [c_uint; 60],
    rounds: c_int,
}

extern "C" {
    fn SHA256(message: *const u8, len: usize, digest: *mut u8) -> *mut u8;
    fn EVP_sha256() -> *const c_void;
    fn EVP_sha1() -> *const c_void;
    fn HMAC(
        hash: *const c_void,
        key: *const c_void,
        key_len: c_int,
        message: *const u8,
        len: usize,
        mac: *mut u8,
        mac_len: *mut c_uint,
    ) -> *mut u8;
    fn AES_set_encrypt_key(key: *const u8, bits: c_int, into: *mut AesKey) -> c_int;
    fn AES_set_decrypt_key(key: *const u8, bits: c_int, into: *mut AesKey) -> c_int;
    fn AES_wrap_key(key: *mut AesKey, iv: *const u8, out: *mut u8, from: *const u8, len: c_uint) -> c_int;
    fn AES_unwrap_key(key: *mut AesKey, iv: *const u8, out: *mut u8, from: *const u8, len: c_uint) -> c_int;
}

pub fn sha256(message: &[u8]) -> [u8; DIGEST] {
    let mut digest = [0; DIGEST];
    // SAFETY: the message is read for its length, and the digest has the 32 bytes that are written.
    unsafe { SHA256(message.as_ptr(), message.len(), digest.as_mut_ptr()) };
    digest
}

pub fn hmac_sha256(key: &[u8], message: &[u8]) -> [u8; DIGEST] {
    // SAFETY: a hash of OpenSSL, with digests of 32 bytes.
    unsafe { hmac(EVP_sha256(), key, message) }
}

pub fn hmac_sha1(key: &[u8], message: &[u8]) -> [u8; SHA1_DIGEST] {
    // SAFETY: a hash of OpenSSL, with digests of 20 bytes.
    unsafe { hmac(EVP_sha1(), key, message) }
}

/// The MAC by a hash of OpenSSL whose digests have `LEN` bytes.
unsafe fn hmac<const LEN: usize>(hash: *const c_void, key: &[u8], message: &[u8]) -> [u8; LEN] {
    let mut mac = [0; LEN];
    // SAFETY: key and message are read for their lengths, the MAC has the bytes that are written, and its length is
    // not asked for.
    let made = unsafe {
        HMAC(
            hash,
            key.as_ptr().cast(),
            key.len() as c_int,
            message.as_ptr(),
            message.len(),
            mac.as_mut_ptr(),
            ptr::null_mut(),
        )
    };
    assert!(!made.is_null(), "OpenSSL makes every MAC");
    mac
}

/// The key wrapped under a 128-bit KEK with this initial value; 8 bytes longer than the key.
pub fn wrap(kek: &[u8; 16], initial: &[u8; 8], key: &[u8]) -> Vec<u8> {
    let mut round_keys = AesKey { round_keys: [0; 60], rounds: 0 };
    let mut wrapped = vec![0; key.len() + 8];
    // SAFETY: the KEK has 128 bits, and 8 bytes more than the key's length are written.
    let count = unsafe {
        AES_set_encrypt_key(kek.as_ptr(), 128, &mut round_keys);
        AES_wrap_key(&mut round_keys, initial.as_ptr(), wrapped.as_mut_ptr(), key.as_ptr(), key.len() as c_uint)
    };
    assert_eq!(count as usize, wrapped.len(), "OpenSSL wraps every key of whole blocks");
    wrapped
}

/// The unwrapped key, unless unwrapping does not yield the initial value.
pub fn unwrap(kek: &[u8; 16], wrapped: &[u8]) -> Option<Vec<u8>> {
    let mut round_keys = AesKey { round_keys: [0; 60], rounds: 0 };
    let mut key = vec![0; wrapped.len() - 8];
    // SAFETY: the KEK has 128 bits, and 8 bytes fewer than the wrapped key's length are written.
    let count = unsafe {
        AES_set_decrypt_key(kek.as_ptr(), 128, &mut round_keys);
        AES_unwrap_key(
            &mut round_keys,
            INITIAL_VALUE.as_ptr(),
            key.as_mut_ptr(),
            wrapped.as_ptr(),
            wrapped.len() as c_uint,
        )
    };
    (count as usize == key.len()).then_some(key)
}
