//! Usage keys: document 01's run cases, the bounds, the refusals, random requests, and keys that must differ.

use super::{bad_labels, label, label_syntaxes, root_key, with_byte, ROOT_KEY_LENGTHS};
use crate::bytes::Bytes;
use crate::call::{bytes_or_refusal, Call, Expected, Group, Ordered};
use crate::ffi::{self, Outcome};
use crate::guard::Lender;
use crate::model::usage::UsageKey;
use crate::model::Order;
use crate::pairs::{every_pair, mixed, Apart, Fault};
use crate::rng::Rng;

impl Call for UsageKey {
    type Answer = Outcome;

    fn expected(&self) -> Expected<Outcome> {
        bytes_or_refusal(self.key()).with_label(&self.label)
    }

    fn run(&self, lender: &mut Lender) -> Outcome {
        let emsk = lender.bytes("emsk", &self.emsk);
        let label = lender.bytes("label", &self.label);
        let data = lender.bytes("data", &self.data);
        let out = lender.room(self.room);
        // SAFETY: all of it is lent.
        unsafe {
            ffi::kv_usage_key(
                emsk.pointer,
                emsk.len,
                label.pointer,
                label.len,
                data.pointer,
                data.len,
                self.n,
                out.pointer,
                out.len,
            )
        }
    }
}

impl Ordered for UsageKey {
    fn order(&self) -> Order {
        self.tests()
    }
}

/// Pairs of 1, 2, 3, 32, 31, 4, 5, 6 that no input makes hold together.
pub const APART: &[Apart] = &[
    (2, 31, "the domain label has 13 bytes"),
    (3, 31, "the domain label has no bad byte"),
    (32, 31, "the domain label breaches no syntax"),
];

/// All other pairs can: 2 with 3 in a long label, 5 with 6 where n is over 8,160.
const FAULTS: &[Fault<UsageKey>] = &[
    (1, |call| call.emsk.truncate(63)),
    (1, |call| call.emsk.resize(129, 7)),
    (1, |call| call.emsk.clear()),
    (2, |call| call.label.clear()),
    (2, |call| call.label.resize(256, b'x')),
    (3, |call| call.label.insert(0, 0)),
    (3, |call| call.label.insert(0, 31)),
    (3, |call| call.label.push(127)),
    (3, |call| call.label.push(255)),
    (32, |call| call.label.push(b' ')),
    (32, |call| call.label.insert(0, b',')),
    (32, |call| call.label.insert(0, b'@')),
    (32, |call| call.label.push(b'@')),
    (32, |call| call.label = "a@b@c".into()),
    (32, |call| call.label = vec![b'x'; 65].into()),
    (31, |call| call.label = "dsrk@ietf.org".into()),
    (4, |call| call.data.resize(2049, 0)),
    (4, |call| call.data.resize(70_000, 0)),
    (5, |call| call.n = 0),
    (5, |call| call.n = 8161),
    (5, |call| call.n = (1 << 16) + 64),
    (5, |call| call.n = (1 << 32) + 64),
    (5, |call| call.n = u64::MAX),
    (6, |call| call.room = call.n.clamp(1, 9000) as usize - 1),
    (6, |call| call.room = 0),
];

pub fn run(group: &mut Group) {
    checked_cases(group);
    run_cases(group);
    lengths(group);
    label_bytes(group);
    every_pair(group, &request(&mut Rng::named("pairs")), FAULTS, APART);
    for _ in 0..3000 {
        let accepted = request(&mut group.rng);
        group.compare(&accepted);
        mixed(group, &accepted, FAULTS);
    }
    separation(group);
}

/// A random accepted request.
fn request(rng: &mut Rng) -> UsageKey {
    let data_len = rng.skewed(0, 2048);
    let n = rng.skewed(1, 8160);
    let room = n + rng.skewed(0, 40);
    let data = rng.bytes(data_len).into();
    UsageKey { emsk: root_key(rng), label: label(rng), data, n: n as u64, room }
}

/// The requests of P1 to P4, and the two gates that would share a key without the zero byte.
fn checked_cases(group: &mut Group) {
    for (label, data) in [("a", ""), ("a", "\0"), ("ab", ""), ("a", "b"), ("gate1", "2"), ("gate", "12")] {
        let emsk = root_key(&mut group.rng);
        group.compare(&UsageKey { emsk, label: label.into(), data: data.into(), n: 64, room: 64 });
    }
}

/// Document 01, "Run and compared": label of 255 and 256, with an at-sign since request 7 of document 02; data of 2,048 and 2,049; n of 0, 1, 32, 33, 8,160 and 8,161;
/// and n whose low bits alone would be in range.
fn run_cases(group: &mut Group) {
    let lengths = [0, 1, 32, 33, 8160, 8161, 65_536, 65_600, 1 << 32, (1 << 32) + 64, 1 << 63, u64::MAX];
    for label_len in [255, 256] {
        for data_len in [2048, 2049] {
            for n in lengths {
                let emsk = root_key(&mut group.rng);
                let label = with_byte(&group.rng.bytes_in(label_len, b'-', b'?'), label_len / 2, b'@');
                let data = group.rng.bytes(data_len).into();
                group.compare(&UsageKey { emsk, label, data, n, room: 9000 });
            }
        }
    }
}

/// Each length in turn, the others accepted.
fn lengths(group: &mut Group) {
    let mut try_with = |change: &dyn Fn(&mut UsageKey)| {
        let mut call = request(&mut group.rng);
        (call.n, call.room) = (64, 70);
        change(&mut call);
        group.compare(&call);
    };
    for len in ROOT_KEY_LENGTHS {
        try_with(&|call| call.emsk = vec![0x5a; len].into());
    }
    for len in 0..=300 {
        try_with(&|call| call.label = vec![b'l'; len].into());
    }
    for len in (0..=300).chain(2000..=2100) {
        try_with(&|call| call.data = vec![0x64; len].into());
    }
    for n in (0..=1100).chain(8100..=8200) {
        try_with(&|call| (call.n, call.room, call.data) = (n, n as usize, Bytes::default()));
    }
    for room in 0..=130 {
        try_with(&|call| call.room = room);
    }
}

/// Each value of a byte at the start, in the middle and at the end of a label; optional data may hold any.
fn label_bytes(group: &mut Group) {
    for byte in 0..=255 {
        let mut call = request(&mut group.rng);
        (call.n, call.room) = (32, 32);
        for at in [0, 4, 8] {
            call.label = with_byte(b"gate-name", at, byte);
            call.data = vec![byte].into();
            group.compare(&call);
        }
    }
    let accepted = request(&mut group.rng);
    for label in bad_labels(&mut group.rng).into_iter().chain(label_syntaxes()) {
        group.compare(&UsageKey { label, ..accepted.clone() });
    }
}

/// Requests whose texts would run together without the zero byte or the length have different keys.
fn separation(group: &mut Group) {
    let emsk = root_key(&mut group.rng);
    let whole = b"gate12gate12";
    let mut keys: Vec<Vec<u8>> = Vec::new();
    for n in [64, 65, 128] {
        for cut in 1..=whole.len() {
            let (label, data) = whole.split_at(cut);
            let call = UsageKey { emsk: emsk.clone(), label: label.into(), data: data.into(), n, room: n as usize };
            keys.push(group.compare(&call)[..32].to_vec());
        }
    }
    for (place, key) in keys.iter().enumerate() {
        let differs = !keys[..place].contains(key);
        group.check(differs, || format!("two of the requests over {whole:02x?} share a key"));
    }
}
