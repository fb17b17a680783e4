//! Key names: bounds of every length, every value of a label's byte, the refusals, random requests.

use super::{bad_labels, label, label_syntaxes, with_byte};
use crate::call::{bytes_or_refusal, Call, Expected, Group, Ordered};
use crate::ffi::{self, Outcome};
use crate::guard::Lender;
use crate::model::key_name::{KeyName, NAME};
use crate::model::Order;
use crate::pairs::{every_pair, mixed, Fault};
use crate::rng::Rng;

impl Call for KeyName {
    type Answer = Outcome;

    fn expected(&self) -> Expected<Outcome> {
        bytes_or_refusal(self.name()).with_label(&self.label)
    }

    fn run(&self, lender: &mut Lender) -> Outcome {
        let session_id = lender.bytes("session_id", &self.session_id);
        let label = lender.bytes("label", &self.label);
        let out = lender.room(self.room);
        // SAFETY: all of it is lent.
        unsafe { ffi::kv_key_name(session_id.pointer, session_id.len, label.pointer, label.len, out.pointer, out.len) }
    }
}

impl Ordered for KeyName {
    fn order(&self) -> Order {
        self.tests()
    }
}

/// All pairs of 9, 2, 3, 32, 6 can hold together: 2 with 3 and with 32 in a long label.
const FAULTS: &[Fault<KeyName>] = &[
    (9, |call| call.session_id.clear()),
    (9, |call| call.session_id.resize(256, 0)),
    (2, |call| call.label.clear()),
    (2, |call| call.label.resize(256, b'x')),
    (3, |call| call.label.insert(0, 31)),
    (3, |call| call.label.push(127)),
    (3, |call| call.label.push(0)),
    (32, |call| call.label.push(b' ')),
    (32, |call| call.label.insert(0, b',')),
    (32, |call| call.label.insert(0, b'@')),
    (32, |call| call.label = "a@b@c".into()),
    (32, |call| call.label = vec![b'x'; 65].into()),
    (6, |call| call.room = NAME - 1),
    (6, |call| call.room = 0),
];

pub fn run(group: &mut Group) {
    lengths(group);
    label_bytes(group);
    every_pair(group, &request(&mut Rng::named("pairs")), FAULTS, &[]);
    for _ in 0..5000 {
        let accepted = request(&mut group.rng);
        group.compare(&accepted);
        mixed(group, &accepted, FAULTS);
    }
}

/// A random accepted request.
fn request(rng: &mut Rng) -> KeyName {
    let len = rng.skewed(1, 255);
    let session_id = rng.bytes(len).into();
    KeyName { session_id, label: label(rng), room: NAME + rng.skewed(0, 40) }
}

/// Each length in turn, the others accepted.
fn lengths(group: &mut Group) {
    let mut try_with = |change: &dyn Fn(&mut KeyName)| {
        let mut call = request(&mut group.rng);
        change(&mut call);
        group.compare(&call);
    };
    for len in 0..=300 {
        try_with(&|call| call.session_id = vec![0xe5; len].into());
        try_with(&|call| call.label = vec![b'~'; len].into());
    }
    for room in 0..=70 {
        try_with(&|call| call.room = room);
    }
}

/// Each value of a byte at the start, in the middle and at the end of a label; a Session-ID may hold any.
fn label_bytes(group: &mut Group) {
    for byte in 0..=255 {
        let mut call = request(&mut group.rng);
        for at in [0, 4, 8] {
            call.label = with_byte(b"gate-name", at, byte);
            call.session_id = vec![byte].into();
            group.compare(&call);
        }
    }
    let accepted = request(&mut group.rng);
    for label in bad_labels(&mut group.rng).into_iter().chain(label_syntaxes()) {
        group.compare(&KeyName { label, ..accepted.clone() });
    }
}
