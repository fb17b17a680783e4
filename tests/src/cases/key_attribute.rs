//! Key attributes: both round trips on every key length, every single-bit change, the refusals, random attributes.

use crate::bytes::Bytes;
use crate::call::{bytes_or_refusal, Call, Expected, Group, Ordered};
use crate::ffi::{self, KeyAttribute, Outcome};
use crate::guard::Lender;
use crate::model::key_attribute::{Fields, ReadKey, WriteKey, OVERHEAD, WRAPPED_AT};
use crate::model::Order;
use crate::openssl::{wrap, INITIAL_VALUE};
use crate::pairs::{every_pair, mixed, Apart, Fault};
use crate::rng::Rng;

impl Call for WriteKey {
    type Answer = Outcome;

    fn expected(&self) -> Expected<Outcome> {
        bytes_or_refusal(self.attribute())
    }

    fn run(&self, lender: &mut Lender) -> Outcome {
        let kek_id = lender.bytes("kek_id", &self.kek_id);
        let key_id = lender.bytes("key_id", &self.key_id);
        let kek = lender.bytes("kek", &self.kek);
        let key = lender.bytes("key", &self.key);
        let out = lender.room(self.room);
        // SAFETY: all of it is lent.
        unsafe {
            ffi::kv_write_key_attribute(
                self.kind,
                self.app_id,
                kek_id.pointer,
                kek_id.len,
                key_id.pointer,
                key_id.len,
                self.lifetime,
                kek.pointer,
                kek.len,
                key.pointer,
                key.len,
                out.pointer,
                out.len,
            )
        }
    }
}

impl Ordered for WriteKey {
    fn order(&self) -> Order {
        self.tests()
    }
}

impl Call for ReadKey {
    type Answer = KeyAttribute;

    fn expected(&self) -> Expected<KeyAttribute> {
        match self.fields() {
            Ok(fields) => Expected { answer: answer_of(&fields), written: fields.key.to_vec() },
            Err(refusal) => Expected::nothing_written(KeyAttribute { refusal, ..KeyAttribute::default() }),
        }
    }

    fn run(&self, lender: &mut Lender) -> KeyAttribute {
        let kek = lender.bytes("kek", &self.kek);
        let attribute = lender.bytes("attribute", &self.attribute);
        let out = lender.room(self.room);
        // SAFETY: all of it is lent.
        unsafe {
            ffi::kv_read_key_attribute(kek.pointer, kek.len, attribute.pointer, attribute.len, out.pointer, out.len)
        }
    }
}

impl Ordered for ReadKey {
    fn order(&self) -> Order {
        self.tests()
    }
}

fn answer_of(fields: &Fields) -> KeyAttribute {
    KeyAttribute {
        refusal: 0,
        app_id: fields.app_id,
        lifetime: fields.lifetime,
        key_len: fields.key.len() as u32,
        kind: fields.kind,
        kek_id: fields.kek_id,
        key_id: fields.key_id,
    }
}

/// All pairs of 20, 21, 22, 23, 6 can hold together.
const WRITE_FAULTS: &[Fault<WriteKey>] = &[
    (20, |call| call.kind = 0),
    (21, |call| call.kek_id.truncate(15)),
    (21, |call| call.key_id.truncate(15)),
    (21, |call| call.kek_id.resize(17, 0)),
    (21, |call| call.key_id.resize(17, 0)),
    (21, |call| call.kek_id.clear()),
    (22, |call| call.kek.truncate(15)),
    (22, |call| call.kek.resize(17, 0)),
    (22, |call| call.kek.resize(32, 0)),
    (22, |call| call.kek.clear()),
    (23, |call| call.key.truncate(8)),
    (23, |call| call.key.truncate(15)),
    (23, |call| call.key.resize(33, 0)),
    (23, |call| call.key.resize(200, 0)),
    (23, |call| call.key.clear()),
    (6, |call| call.room = OVERHEAD + call.key.len() - 1),
    (6, |call| call.room = 0),
];

const READ_FAULTS: &[Fault<ReadKey>] = &[
    (22, |call| call.kek.truncate(15)),
    (22, |call| call.kek.resize(17, 0)),
    (22, |call| call.kek.clear()),
    (24, |call| call.attribute.truncate(1)),
    (24, |call| call.attribute.truncate(59)),
    (24, |call| set(call, 1, 4)),
    (24, |call| set(call, 1, 100)),
    (24, |call| call.attribute.extend([0; 8])),
    (24, |call| call.attribute.clear()),
    (20, |call| set(call, 0, 0)),
    (25, |call| set(call, 2, 1)),
    (25, |call| set(call, 2, 128)),
    (26, |call| set(call, 3, 1)),
    (26, |call| set(call, 3, 128)),
    (27, |call| set(call, 44, 0xa7)),
    (27, |call| set(call, 51, 0x26)),
    (6, |call| call.room = call.attribute.len().saturating_sub(OVERHEAD + 1)),
    (6, |call| call.room = 0),
    (28, |call| call.kek.iter_mut().for_each(|byte| *byte ^= 1)),
    (28, |call| change(call, WRAPPED_AT)),
    (28, |call| change(call, WRAPPED_AT + 24)),
];

/// The pair of the reader's order that no input has; all others can hold together.
pub const APART: &[Apart] =
    &[(22, 28, "without a KEK of 16 bytes nothing is unwrapped, so unwrapping yields no value")];

/// Sets a byte, where the attribute has it.
fn set(call: &mut ReadKey, at: usize, byte: u8) {
    if let Some(place) = call.attribute.get_mut(at) {
        *place = byte;
    }
}

/// Changes a byte, where the attribute has it.
fn change(call: &mut ReadKey, at: usize) {
    if let Some(place) = call.attribute.get_mut(at) {
        *place ^= 0x10;
    }
}

pub fn write(group: &mut Group) {
    for len in 0..=300 {
        for room in [0, len + OVERHEAD - 1, len + OVERHEAD, len + OVERHEAD + 1, 400] {
            let call = to_write(&mut group.rng, len);
            group.compare(&WriteKey { room, ..call });
        }
    }
    write_lengths(group);
    for kind in 0..=255 {
        let call = to_write(&mut group.rng, 32);
        group.compare(&WriteKey { kind, ..call });
    }
    every_pair(group, &to_write(&mut Rng::named("pairs"), 32), WRITE_FAULTS, &[]);
    for _ in 0..5000 {
        let len = 8 * group.rng.between(2, 24);
        let call = to_write(&mut group.rng, len);
        group.compare(&call);
        mixed(group, &call, WRITE_FAULTS);
    }
}

/// Each length of KEK and of the two IDs, alone and together.
fn write_lengths(group: &mut Group) {
    for len in 0..=33 {
        let call = to_write(&mut group.rng, 24);
        let bytes: Bytes = group.rng.bytes(len).into();
        group.compare(&WriteKey { kek: bytes.clone(), ..call.clone() });
        group.compare(&WriteKey { kek_id: bytes.clone(), ..call.clone() });
        group.compare(&WriteKey { key_id: bytes.clone(), ..call.clone() });
        // two lengths whose sum is right
        let rest = vec![1; 32usize.saturating_sub(len)].into();
        group.compare(&WriteKey { kek_id: bytes, key_id: rest, ..call });
    }
}

/// A random request, accepted if the key's length is.
fn to_write(rng: &mut Rng, key_len: usize) -> WriteKey {
    let edges = [0, 1, 0x7fff_ffff, 0x8000_0000, 0xffff_ffff];
    let mut number = || {
        if rng.once_in(4) {
            rng.pick(&edges)
        } else {
            rng.next() as u32
        }
    };
    let (app_id, lifetime) = (number(), number());
    WriteKey {
        kind: rng.between(1, 255) as u8,
        app_id,
        kek_id: rng.bytes(16).into(),
        key_id: rng.bytes(16).into(),
        lifetime,
        kek: rng.bytes(16).into(),
        key: rng.bytes(key_len).into(),
        room: OVERHEAD + key_len + rng.skewed(0, 40),
    }
}

pub fn read(group: &mut Group) {
    for len in (16..=192).step_by(8) {
        let accepted = to_read(&mut group.rng, len);
        bit_changes(group, &accepted);
        for room in [0, 1, len - 1, len, len + 1, 300] {
            group.compare(&ReadKey { room, ..accepted.clone() });
        }
        initial_values(group, &accepted, len);
    }
    lengths(group);
    every_pair(group, &to_read(&mut Rng::named("pairs"), 32), READ_FAULTS, APART);
    for _ in 0..5000 {
        let len = 8 * group.rng.between(2, 24);
        let call = to_read(&mut group.rng, len);
        group.compare(&call);
        mixed(group, &call, READ_FAULTS);
    }
}

/// An accepted attribute, as the papers have it written.
fn to_read(rng: &mut Rng, key_len: usize) -> ReadKey {
    let written = to_write(rng, key_len);
    let attribute = written.attribute().expect("to_write makes accepted requests").into();
    ReadKey { kek: written.kek, attribute, room: key_len + rng.skewed(0, 40) }
}

/// Each bit of the attribute changed, and each bit of the KEK.
fn bit_changes(group: &mut Group, accepted: &ReadKey) {
    group.compare(accepted);
    for bit in 0..8 * accepted.attribute.len() {
        let mut call = accepted.clone();
        call.attribute[bit / 8] ^= 1 << (bit % 8);
        group.compare(&call);
    }
    for bit in 0..8 * accepted.kek.len() {
        let mut call = accepted.clone();
        call.kek[bit / 8] ^= 1 << (bit % 8);
        group.compare(&call);
    }
}

/// Keys wrapped with an initial value that is wrong in one bit: all eight bytes are looked at, and no key is written.
fn initial_values(group: &mut Group, accepted: &ReadKey, key_len: usize) {
    let kek = accepted.kek[..].try_into().expect("an accepted KEK has 16 bytes");
    let key = group.rng.bytes(key_len);
    for bit in 0..64 {
        let mut initial = INITIAL_VALUE;
        initial[bit / 8] ^= 1 << (bit % 8);
        let mut call = accepted.clone();
        call.attribute.truncate(WRAPPED_AT);
        call.attribute.extend(wrap(&kek, &initial, &key));
        group.compare(&call);
    }
}

/// Each count of lent bytes with each length byte, and each length of KEK.
fn lengths(group: &mut Group) {
    for lent in 0..=320 {
        let mut call = to_read(&mut group.rng, 192);
        call.attribute.resize(lent, 0xa6);
        for length in 0..=255 {
            set(&mut call, 1, length);
            group.compare(&call);
        }
    }
    for len in 0..=33 {
        let accepted = to_read(&mut group.rng, 16);
        let mut kek = accepted.kek.clone();
        kek.resize(len, 0);
        group.compare(&ReadKey { kek, ..accepted });
    }
}

/// What the library writes reads back to the same fields and key; what it reads, written again, is the same bytes.
pub fn round_trips(group: &mut Group) {
    for len in (16..=192).step_by(8) {
        for _ in 0..20 {
            let written = to_write(&mut group.rng, len);
            let attribute = group.compare(&written)[..OVERHEAD + len].to_vec();
            let reader = ReadKey { kek: written.kek.clone(), attribute: attribute.into(), room: len };
            let key: Bytes = group.compare(&reader).into();
            group.check(key == written.key, || format!("{written:?} reads back as the key {key:?}"));
            let again: Bytes = group.compare(&WriteKey { key, room: OVERHEAD + len, ..written }).into();
            group.check(again == reader.attribute, || format!("{reader:?} is written again as {again:?}"));
        }
    }
}
