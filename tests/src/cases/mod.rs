//! The inputs, by topic.

pub mod aka;
pub mod area;
pub mod bundle;
pub mod compare;
pub mod domain;
pub mod exports;
pub mod handover;
pub mod hash;
pub mod key_attribute;
pub mod key_name;
pub mod offers;
pub mod packet;
pub mod paper;
pub mod published;
pub mod slots;
pub mod usage;
pub mod visited;

use crate::bytes::Bytes;
use crate::rng::Rng;

/// Lengths around the bounds of a root key.
const ROOT_KEY_LENGTHS: [usize; 12] = [0, 1, 32, 62, 63, 64, 65, 100, 127, 128, 129, 300];

/// A root key of an accepted length.
fn root_key(rng: &mut Rng) -> Bytes {
    let len = rng.between(64, 128);
    rng.bytes(len).into()
}

/// A domain of an accepted length and of accepted bytes.
fn domain(rng: &mut Rng) -> Bytes {
    const LETTERS: &[u8] = b"ABCDEFGHIJKLMNOPQRSTUVWXYZabcdefghijklmnopqrstuvwxyz0123456789-.";
    let len = rng.skewed(1, 253);
    (0..len).map(|_| rng.pick(LETTERS)).collect::<Vec<u8>>().into()
}

/// A label of an accepted length, of accepted bytes and of the syntax of a label: one at-sign within it, which only a label of up to 64
/// bytes may lack.
fn label(rng: &mut Rng) -> Bytes {
    let len = rng.skewed(1, 255);
    let mut label = rng.bytes_in(len, b'-', b'?');
    if len > 64 || (len > 2 && rng.once_in(2)) {
        label[rng.between(1, len - 2)] = b'@';
    }
    label.into()
}

/// Labels about each clause of 32, on both sides of it, and the exempt ones with a byte more, a byte less and a byte changed.
fn label_syntaxes() -> Vec<Bytes> {
    let mut labels: Vec<Bytes> = Vec::new();
    for len in 1..=255 {
        let plain = vec![b'l'; len];
        labels.push(plain.clone().into());
        for at in [0, 1, len / 2, len - 1] {
            if at < len {
                for byte in [b' ', b',', b'@'] {
                    let one = with_byte(&plain, at, byte);
                    labels.push(with_byte(&one, len / 3, b'@'));
                    labels.push(one);
                }
            }
        }
    }
    let fixed = [
        "EAP Visited domain Root Key",
        "EAP Re-authentication Root Key",
        "EAP Re-authentication Root Key@ietf.org",
        "dsrk@ietf.org",
    ];
    for text in fixed {
        let whole = text.as_bytes();
        labels.push(text.into());
        labels.push([whole, b"x"].concat().into());
        labels.push(whole[..whole.len() - 1].into());
        labels.push(whole[1..].into());
        for at in 0..whole.len() {
            labels.push(with_byte(whole, at, b'x'));
        }
    }
    for text in ["@", "@@", "a@", "@a", "a@b", "a@b@c", "a@@b", " ", ",", "a b", "a,b", "a@b c", "a@b,c"] {
        labels.push(text.into());
    }
    labels
}

/// Labels of 1, 9, 255 and 256 bytes with a bad byte at each place in turn, alone and before others: the first is told.
fn bad_labels(rng: &mut Rng) -> Vec<Bytes> {
    let mut labels = Vec::new();
    for len in [1, 9, 255, 256] {
        for first in 0..len {
            let byte = rng.pick(&[0, 9, 31, 127, 128, 255]);
            let alone = with_byte(&rng.bytes_in(len, 32, 126), first, byte);
            let rest = rng.bytes(len - first - 1);
            labels.push([&alone[..=first], &rest[..]].concat().into());
            labels.push(alone);
        }
    }
    labels
}

/// The bytes with one of them changed.
fn with_byte(bytes: &[u8], at: usize, byte: u8) -> Bytes {
    let mut changed = Bytes::from(bytes);
    changed[at] = byte;
    changed
}
