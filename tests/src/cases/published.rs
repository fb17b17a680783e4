//! The published vectors that the exported calls can show, with the answers as they were published.

use super::hash::{HmacSha256, Sha256};
use crate::bytes::{hex, Bytes};
use crate::call::Group;
use crate::model::aka::AkaKeys;
use crate::model::key_attribute::{WriteKey, WRAPPED_AT};

/// NIST's examples for FIPS 180-4: messages and digests.
pub fn fips_180(group: &mut Group) {
    let long = "abcdefghbcdefghicdefghijdefghijkefghijklfghijklmghijklmn\
                hijklmnoijklmnopjklmnopqklmnopqrlmnopqrsmnopqrstnopqrstu";
    let cases = [
        ("", "e3b0c44298fc1c149afbf4c8996fb92427ae41e4649b934ca495991b7852b855"),
        ("abc", "ba7816bf8f01cfea414140de5dae2223b00361a396177a9cb410ff61f20015ad"),
        (
            "abcdbcdecdefdefgefghfghighijhijkijkljklmklmnlmnomnopnopq",
            "248d6a61d20638b8e5c026930c3e6039a33ce45964ff2167f6ecedd419db06c1",
        ),
        (long, "cf5b16a778af8380036ce59e7b0492370b249b11e8f07a51afac45037afee9d1"),
        (&"a".repeat(1_000_000), "cdc76e5c9914fb9281a1c7e284d73e67f1809a48a497200e046d39ccc7112cd0"),
    ];
    for (message, digest) in cases {
        let found = group.compare(&Sha256 { message: message.into(), room: 32 });
        group.check(found == hex(digest), || format!("{} bytes, digest {digest}", message.len()));
    }
}

/// RFC 4231, section 4: keys, messages and MACs. Of case 5 the RFC gives the first 128 bits.
pub fn rfc_4231(group: &mut Group) {
    let counted: Vec<u8> = (1..=25).collect();
    let longer = "This is a test using a larger than block-size key and a larger than block-size data. \
                  The key needs to be hashed before being used by the HMAC algorithm.";
    let cases: [(&[u8], &[u8], &str); 7] = [
        (&[0x0b; 20], b"Hi There", "b0344c61d8db38535ca8afceaf0bf12b881dc200c9833da726e9376c2e32cff7"),
        (b"Jefe", b"what do ya want for nothing?", "5bdcc146bf60754e6a042426089575c75a003f089d2739839dec58b964ec3843"),
        (&[0xaa; 20], &[0xdd; 50], "773ea91e36800e46854db8ebd09181a72959098b3ef8c122d9635514ced565fe"),
        (&counted, &[0xcd; 50], "82558a389a443c0ea4cc819899f2083a85f0faa3e578f8077a2e3ff46729665b"),
        (&[0x0c; 20], b"Test With Truncation", "a3b6167473100ee06e0c796c2955552b"),
        (
            &[0xaa; 131],
            b"Test Using Larger Than Block-Size Key - Hash Key First",
            "60e431591ee0b67f0d8a26aacbf5b77f8e0bc6213728c5140546040f0ee37f54",
        ),
        (&[0xaa; 131], longer.as_bytes(), "9b09ffa71b942fcb27635fbcd5b0e944bfdc63644f0713938a7f51535c3a35e2"),
    ];
    for (key, message, mac) in cases {
        let call = HmacSha256 { key: key.into(), message: message.into(), room: 32 };
        let found = group.compare(&call);
        group.check(found.starts_with(&hex(mac)), || format!("{call:?}, MAC {mac}"));
    }
}

/// RFC 5448, appendix C: the four cases, each as K_encr, K_aut, K_re, MSK and EMSK. SQN xor AK is the start of AUTN.
pub fn rfc_5448(group: &mut Group) {
    let first = ("5349fbe098649f948f5d2e973a81c00f", "9744871ad32bf9bbd1dd5ce54e3e2e5a", "bb52e91c747a");
    let third = ("c0c0c0c0c0c0c0c0c0c0c0c0c0c0c0c0", "b0b0b0b0b0b0b0b0b0b0b0b0b0b0b0b0", "a0a0a0a0a0a0");
    let cases = [
        (
            first,
            "WLAN",
            "766fa0a6c317174b812d52fbcd11a179\
             0842ea722ff6835bfa2032499fc3ec23c2f0e388b4f07543ffc677f1696d71ea\
             cf83aa8bc7e0aced892acc98e76a9b2095b558c7795c7094715cb3393aa7d17a\
             67c42d9aa56c1b79e295e3459fc3d187d42be0bf818d3070e362c5e967a4d544\
             e8ecfe19358ab3039aff03b7c930588c055babee58a02650b067ec4e9347c75a\
             f861703cd775590e16c7679ea3874ada866311de290764d760cf76df647ea01c\
             313f69924bdd7650ca9bac141ea075c4ef9e8029c0e290cdbad5638b63bc23fb",
        ),
        (
            first,
            "HRPD",
            "05ad73ac915fce89ac77e1520d82187b\
             5b4acaef62c6ebb8882b2f3d534c4b35277337a00184f20ff25d224c04be2afd\
             3f90bf5c6e5ef325ff04eb5ef6539fa8cca8398194fbd00be425b3f40dba10ac\
             87b321570117cd6c95ab6c436fb5073ff15cf85505d2bc5bb7355fc21ea8a757\
             57e8f86a2b138002e05752913bb43b82f868a96117e91a2d95f526677d572900\
             c891d5f20f148a1007553e2dea555c9cb672e9675f4a66b4bafa027379f93aee\
             539a5979d0a0042b9d2ae28bed3b17a31dc8ab75072b80bd0c1da612466e402c",
        ),
        (
            third,
            "WLAN",
            "897d302fa2847416488c28e20dcb7be4\
             c40700e7722483ae3dc7139eb0b88bb558cb3081eccd057f9207d1286ee7dd53\
             0a591a22dd8b5b1cf29e3d508c91dbbdb4aee23051892c42b6a2de66ea504473\
             9f7dca9e37bb22029ed986e7cd09d4a70d1ac76d95535c5cac40a7504699bb89\
             61a29ef6f3e90f183de5861ad1bedc81ce9916391b401aa006c98785a5756df7\
             724de00bdb9e568187be3fe746114557d5018779537ee37f4d3c6c738cb97b9d\
             c651bc19bfadc344ffe2b52ca78bd8316b51dacc5f2b1440cb9515521cc7ba23",
        ),
        (
            third,
            "HRPD",
            "745e7439ba238f50fcac4d15d47cd1d9\
             3e1d2aa4e677025cfd862a4be18361a13a645765571463df833a9759e8099879\
             99da835e2ae82462576fe6516fad1f802f0fa1191655dd0a273da96d04e0fcd3\
             c6d3a6e0ceea951eb20d74f32c3061d0680a04b0b086ee8700ace3e0b95fa026\
             83c287beee44432294ff98af26d2cc783bace75c4b0af7fdfeb5511ba8e4cbd0\
             7fb56813838adafa99d140c2f198f6dacebfb6afee444961105402b508c7f363\
             352cb2919644b50463e6a69354150147ae09cbc54b8a651d8787a6893ed8536d",
        ),
    ];
    for ((ck, ik, sqn), name, keys) in cases {
        let call = AkaKeys {
            ck: hex(ck).into(),
            ik: hex(ik).into(),
            name: name.into(),
            sqn_xor_ak: hex(sqn).into(),
            identity: "0555444333222111".into(),
            room: 208,
        };
        let found = group.compare(&call);
        group.check(found == hex(keys), || format!("{call:?}, keys {keys}"));
    }
}

/// RFC 3394, section 4.1, wrapped by the Key attribute's writer.
pub fn rfc_3394(group: &mut Group) {
    let call = WriteKey {
        kind: 1,
        app_id: 0,
        kek_id: vec![0; 16].into(),
        key_id: vec![0; 16].into(),
        lifetime: 0,
        kek: hex("000102030405060708090A0B0C0D0E0F").into(),
        key: hex("00112233445566778899AABBCCDDEEFF").into(),
        room: 76,
    };
    let wrapped = hex("1FA68B0A8112B447AEF34BD8FB5A7B829D3E862371D2CFE5");
    let found: Bytes = group.compare(&call)[WRAPPED_AT..].into();
    group.check(found[..] == wrapped, || format!("RFC 3394 4.1 gives {found:?}"));
}
