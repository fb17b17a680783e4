//! The model itself against document 01's checked cases and its published primitives, with no call of the library.

use crate::bytes::hex;
use crate::call::Group;
use crate::model::area::{names_agree, ReadArea, Way};
use crate::model::handover::{iteration, kdf};
use crate::model::key_attribute::WriteKey;
use crate::model::offers::{Answer, Choose, Recheck, Reply};
use crate::model::prf::prf_plus;
use crate::model::usage::text;
use crate::openssl::{hmac_sha1, hmac_sha256, sha256, unwrap, wrap, INITIAL_VALUE};

pub fn run(group: &mut Group) {
    texts(group);
    offers(group);
    key_lengths(group);
    listing(group);
    handover(group);
    names(group);
    primitives(group);
}

fn row(group: &mut Group, name: &str, holds: bool) {
    group.check(holds, || format!("the model fails {name}"));
}

/// P1 to P5.
fn texts(group: &mut Group) {
    row(group, "P1", text(b"a", b"", 64) == hex("61 00 00 40"));
    row(group, "P2", text(b"a", &[0], 64) == hex("61 00 00 00 40"));
    row(group, "P3", text(b"ab", b"", 64) == hex("61 62 00 00 40"));
    row(group, "P4", text(b"a", b"b", 64) == hex("61 00 62 00 40"));
    let (key, first) = ([0x0b; 64], hex("61 00 00 40 01"));
    let expansion = prf_plus(&key, &text(b"a", b"", 64), 64);
    row(group, "P5", expansion[..32] == hmac_sha256(&key, &first));
    let second = [&expansion[..32], &hex("61 00 00 40 02")].concat();
    row(group, "the second block", expansion[32..] == hmac_sha256(&key, &second));
}

/// P6 to P13.
fn offers(group: &mut Group) {
    let choose =
        |offers: &[u16], supported: &[u16]| Choose { offers: offers.to_vec(), supported: supported.to_vec() }.answer();
    let reply = |reply| Reply { offers: vec![2, 1], reply, room: 3 }.list();
    row(group, "P6", choose(&[2, 1], &[1]) == Ok(Answer::Ask { value: 1, position: 1 }));
    row(group, "P7", choose(&[2, 1], &[1, 2]) == Ok(Answer::CarryOn { value: 2 }));
    row(group, "P8", choose(&[2, 2], &[2]) == Err(11));
    row(group, "P9", choose(&[2, 1], &[3]) == Err(12));
    row(group, "P10", reply(1) == Ok(vec![1, 2, 1]));
    row(group, "P11", reply(2) == Err(13));
    row(group, "P12", reply(7) == Err(14));
    let renewed = Recheck { original: vec![2, 1], choice: 1, renewed: vec![1, 1, 2] };
    row(group, "P13", renewed.choice() == Err(15));
}

/// P14.
fn key_lengths(group: &mut Group) {
    let with_key = |len: usize| {
        WriteKey {
            kind: 1,
            app_id: 0,
            kek_id: vec![0; 16].into(),
            key_id: vec![0; 16].into(),
            lifetime: 0,
            kek: vec![0; 16].into(),
            key: vec![0; len].into(),
            room: 300,
        }
        .attribute()
        .map(|attribute| attribute.len())
    };
    row(group, "P14, 192 bytes", with_key(192) == Ok(252));
    row(group, "P14, 200 bytes", with_key(200) == Err(23));
}

/// The area of the listing program.
fn listing(group: &mut Group) {
    let area = hex("18 01 00 02 18 01 00 01 17 02 00 03 57 4C 4E 00").into();
    let read = ReadArea { area, own_name: "".into(), way: Way::Lenient, room: 17 }.contents();
    let right = read
        .is_ok_and(|found| found.offers == [2, 1] && found.name_at == 12 && found.name_len == 3 && !found.same_name);
    row(group, "the listing", right);
}

/// The names of document 02, request 4, and of RFC 5448's rule.
fn names(group: &mut Group) {
    let pairs = [
        ("", "", true),
        ("", ":", true),
        ("", ":BAR", true),
        ("", "FOO:BAR", false),
        ("FOO:", "FOO", true),
        ("FOO:", "FOO:BAR", false),
        ("FOO", "FOO:BAR", true),
        ("FOO", "FOOBAR", false),
    ];
    for (a, b, agree) in pairs {
        let right =
            names_agree(a.as_bytes(), b.as_bytes()) == agree && names_agree(b.as_bytes(), a.as_bytes()) == agree;
        row(group, &format!("names {a:?} and {b:?}"), right);
    }
}

/// Source document 003, section 5, by hand: a key of two iterations, which are not chained, and its first 32 bytes.
fn handover(group: &mut Group) {
    let (first, second) = (hex("01 00 6c 00 63 00 01"), hex("02 00 6c 00 63 00 01"));
    row(group, "an iteration's bytes", iteration(b"l", b"c", 256, 1) == first);
    let both = [hmac_sha1(b"key", &first), hmac_sha1(b"key", &second)].concat();
    row(group, "a key of 256 bits", kdf(b"key", b"l", b"c", 256) == both[..32]);
}

/// That the primitives are called as they should be: FIPS 180-4, RFC 4231 and RFC 2202 (case 2), RFC 3394 (4.1).
fn primitives(group: &mut Group) {
    let digest = hex("ba7816bf8f01cfea414140de5dae2223b00361a396177a9cb410ff61f20015ad");
    row(group, "SHA-256 of abc", sha256(b"abc")[..] == digest);
    let mac = hex("5bdcc146bf60754e6a042426089575c75a003f089d2739839dec58b964ec3843");
    row(group, "RFC 4231 case 2", hmac_sha256(b"Jefe", b"what do ya want for nothing?")[..] == mac);
    let mac = hex("effcdf6ae5eb2fa2d27416d5f184df9c259a7c79");
    row(group, "RFC 2202 case 2", hmac_sha1(b"Jefe", b"what do ya want for nothing?")[..] == mac);
    let kek: [u8; 16] = std::array::from_fn(|at| at as u8);
    let key = hex("00112233445566778899AABBCCDDEEFF");
    let wrapped = hex("1FA68B0A8112B447AEF34BD8FB5A7B829D3E862371D2CFE5");
    row(group, "RFC 3394 4.1, wrap", wrap(&kek, &INITIAL_VALUE, &key) == wrapped);
    row(group, "RFC 3394 4.1, unwrap", unwrap(&kek, &wrapped) == Some(key));
}
