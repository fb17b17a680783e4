//! Bundles: both round trips, every bit of a small file flipped, every field spoilt, the refusals, random bundles.

use crate::bytes::Bytes;
use crate::call::{bytes_or_refusal, Call, Expected, Group, Ordered};
use crate::ffi::{self, Outcome};
use crate::guard::Lender;
use crate::model::bundle::{file_of, key_id, ReadBundle, WriteBundle};
use crate::model::Order;
use crate::openssl::INITIAL_VALUE;
use crate::pairs::{every_pair, mixed, Apart, Fault};
use crate::rng::Rng;

impl Call for WriteBundle {
    type Answer = Outcome;

    fn expected(&self) -> Expected<Outcome> {
        bytes_or_refusal(self.file())
    }

    fn run(&self, lender: &mut Lender) -> Outcome {
        let attributes = lender.bytes("attributes", &self.attributes);
        let out = lender.room(self.room);
        // SAFETY: all of it is lent.
        unsafe { ffi::kv_write_bundle(attributes.pointer, attributes.len, out.pointer, out.len) }
    }
}

impl Ordered for WriteBundle {
    fn order(&self) -> Order {
        self.tests()
    }
}

impl Call for ReadBundle {
    type Answer = Outcome;

    fn expected(&self) -> Expected<Outcome> {
        bytes_or_refusal(self.packed())
    }

    fn run(&self, lender: &mut Lender) -> Outcome {
        let file = lender.bytes("file", &self.file);
        let out = lender.room(self.room);
        // SAFETY: all of it is lent.
        unsafe { ffi::kv_read_bundle(file.pointer, file.len, out.pointer, out.len) }
    }
}

impl Ordered for ReadBundle {
    fn order(&self) -> Order {
        self.tests()
    }
}

/// An attribute whose frame is right, with the key that it carries at random: no KEK is at hand when a bundle is made.
pub fn attribute(rng: &mut Rng, key_len: usize, id: &[u8]) -> Vec<u8> {
    let mut bytes = vec![rng.between(1, 255) as u8, (60 + key_len) as u8, 0, 0];
    bytes.extend(rng.bytes(20));
    bytes.extend(id);
    bytes.extend(rng.bytes(4));
    bytes.extend(INITIAL_VALUE);
    bytes.extend(rng.bytes(key_len + 8));
    bytes
}

/// So many attributes, each with a Key ID of its own: at random, or alike in all bytes but one.
pub fn attributes(rng: &mut Rng, count: usize) -> Vec<Vec<u8>> {
    let (alike, place) = (rng.once_in(2), rng.below(16));
    let common = rng.bytes(16);
    let one = |which: usize, rng: &mut Rng| {
        let mut id = if alike { common.clone() } else { rng.bytes(16) };
        id[place] = which as u8;
        let key_len = 8 * rng.between(2, 24);
        attribute(rng, key_len, &id)
    };
    (0..count).map(|which| one(which, rng)).collect()
}

/// A bundle of so many attributes to write, with room for it.
fn to_write(rng: &mut Rng, count: usize) -> WriteBundle {
    let attributes: Bytes = attributes(rng, count).concat().into();
    let room = 2 + 20 * count + attributes.len() + rng.skewed(0, 40);
    WriteBundle { attributes, room }
}

/// A bundle of so many attributes to read, with room for them.
pub fn to_read(rng: &mut Rng, count: usize) -> ReadBundle {
    let attributes = attributes(rng, count);
    let bodies: Vec<&[u8]> = attributes.iter().map(|body| &body[..]).collect();
    let room = attributes.concat().len() + rng.skewed(0, 40);
    ReadBundle { file: file_of(&bodies).into(), room }
}

/// Where the last of the attributes begins.
fn last_at(call: &WriteBundle) -> usize {
    call.attributes.len() - call.bodies().last().map_or(0, |body| body.len())
}

/// Sets a byte of the last attribute, where there is one.
fn set_last(call: &mut WriteBundle, at: usize, byte: u8) {
    let place = last_at(call) + at;
    if let Some(found) = call.attributes.get_mut(place) {
        *found = byte;
    }
}

const WRITE_FAULTS: &[Fault<WriteBundle>] = &[
    (39, |call| call.attributes.clear()),
    (39, |call| *call = WriteBundle { room: 20000, ..to_write(&mut Rng::named("65"), 65) }),
    (24, |call| set_last(call, 1, 0)),
    (24, |call| set_last(call, 1, 1)),
    (24, |call| set_last(call, 1, 255)),
    (24, |call| call.attributes.push(1)),
    (20, |call| set_last(call, 0, 0)),
    (25, |call| set_last(call, 2, 1)),
    (26, |call| set_last(call, 3, 128)),
    (27, |call| set_last(call, 44, 0xa7)),
    (27, |call| set_last(call, 51, 0x26)),
    (42, |call| repeat_first_id(call)),
    (6, |call| call.room = 0),
    (6, |call| call.room = call.file_length().saturating_sub(1)),
];

/// All pairs of the writer's order can hold together.
pub const WRITE_APART: &[Apart] = &[];

impl WriteBundle {
    fn file_length(&self) -> usize {
        2 + 20 * self.bodies().len() + self.attributes.len()
    }
}

/// Gives the last attribute the Key ID of the first.
fn repeat_first_id(call: &mut WriteBundle) {
    let id = call.bodies().first().map_or(Vec::new(), |body| key_id(body).to_vec());
    for (at, byte) in id.into_iter().enumerate() {
        set_last(call, 24 + at, byte);
    }
}

pub fn write(group: &mut Group) {
    for count in 0..=66 {
        let call = to_write(&mut group.rng, count);
        let full = call.file_length();
        for room in [0, full.saturating_sub(1), full, full + 1] {
            group.compare(&WriteBundle { room, ..call.clone() });
        }
    }
    let accepted = to_write(&mut Rng::named("small"), 2);
    for bit in 0..8 * accepted.attributes.len() {
        let mut call = accepted.clone();
        call.attributes[bit / 8] ^= 1 << (bit % 8);
        group.compare(&call);
    }
    for len in 0..=accepted.attributes.len() {
        let mut call = accepted.clone();
        call.attributes.truncate(len);
        group.compare(&call);
    }
    every_place_repeats(group);
    every_pair(group, &to_write(&mut Rng::named("pairs"), 3), WRITE_FAULTS, WRITE_APART);
    for _ in 0..2000 {
        let count = group.rng.skewed(1, 64);
        let call = to_write(&mut group.rng, count);
        group.compare(&call);
        mixed(group, &call, WRITE_FAULTS);
    }
}

/// Each two of some attributes with the same Key ID, and with one that differs in one bit.
fn every_place_repeats(group: &mut Group) {
    let bodies = attributes(&mut group.rng, 9);
    for first in 0..9 {
        for second in first + 1..9 {
            let mut changed = bodies.clone();
            let id = changed[first][24..40].to_vec();
            changed[second][24..40].copy_from_slice(&id);
            group.compare(&WriteBundle { attributes: changed.concat().into(), room: 3000 });
            for bit in [0, 31, 32, 63, 64, 100, 127] {
                let mut near = changed.clone();
                near[second][24 + bit / 8] ^= 1 << (bit % 8);
                group.compare(&WriteBundle { attributes: near.concat().into(), room: 3000 });
            }
        }
    }
}

/// Sets a byte of the file, where there is one.
fn set(call: &mut ReadBundle, at: usize, byte: u8) {
    if let Some(found) = call.file.get_mut(at) {
        *found = byte;
    }
}

/// Sets a byte of the body of line 1.
fn set_body(call: &mut ReadBundle, at: usize, byte: u8) {
    let place = call.lines().get(1).map_or(usize::MAX, |line| line.offset + at);
    set(call, place, byte);
}

pub const READ_FAULTS: &[Fault<ReadBundle>] = &[
    (39, |call| call.file = vec![0, 0].into()),
    (39, |call| call.file.clear()),
    (39, |call| call.file.truncate(1)),
    (39, |call| *call = ReadBundle { room: 20000, ..to_read(&mut Rng::named("65"), 65) }),
    (39, |call| set(call, 0, 1)),
    (40, |call| swap_lines(call)),
    (40, |call| call.file.truncate(21)),
    (40, |call| set(call, 19, 0)),
    (40, |call| set(call, 38, 1)),
    (41, |call| call.file.push(0)),
    (41, |call| drop_last(call)),
    (42, |call| repeat_id(call)),
    (24, |call| set_body(call, 1, 0)),
    (24, |call| set_body(call, 1, 100)),
    (20, |call| set_body(call, 0, 0)),
    (25, |call| set_body(call, 2, 1)),
    (26, |call| set_body(call, 3, 128)),
    (27, |call| set_body(call, 44, 0xa7)),
    (27, |call| set_body(call, 51, 0x26)),
    (50, |call| change_line_id(call, 22)),
    (50, |call| change_line_id(call, 37)),
    (6, |call| call.room = 0),
    (6, |call| call.room = call.file.len().saturating_sub(call.contents_end() + 1)),
];

/// All pairs of the reader's order can hold together.
pub const READ_APART: &[Apart] = &[];

fn drop_last(call: &mut ReadBundle) {
    let len = call.file.len().saturating_sub(1);
    call.file.truncate(len);
}

/// Swaps lines 0 and 1, so that only the offsets are not those that they should be.
fn swap_lines(call: &mut ReadBundle) {
    if call.file.len() >= 42 {
        let (first, second) = (call.file[2..22].to_vec(), call.file[22..42].to_vec());
        call.file[2..42].copy_from_slice(&[second, first].concat());
    }
}

/// Gives line 1 and its body the Key ID of line 0.
fn repeat_id(call: &mut ReadBundle) {
    let id = call.lines().first().map_or(Vec::new(), |line| line.id.to_vec());
    for (at, byte) in id.into_iter().enumerate() {
        set(call, 22 + at, byte);
        set_body(call, 24 + at, byte);
    }
}

fn change_line_id(call: &mut ReadBundle, at: usize) {
    if let Some(byte) = call.file.get_mut(at) {
        *byte ^= 0x10;
    }
}

pub fn read(group: &mut Group) {
    for count in 0..=66 {
        let call = to_read(&mut group.rng, count);
        let full = call.file.len().saturating_sub(call.contents_end());
        for room in [0, full.saturating_sub(1), full, full + 1] {
            group.compare(&ReadBundle { room, ..call.clone() });
        }
    }
    let accepted = to_read(&mut Rng::named("small"), 2);
    for bit in 0..8 * accepted.file.len() {
        let mut call = accepted.clone();
        call.file[bit / 8] ^= 1 << (bit % 8);
        group.compare(&call);
    }
    for len in 0..=accepted.file.len() {
        let mut call = accepted.clone();
        call.file.truncate(len);
        group.compare(&call);
    }
    every_field(group);
    every_pair(group, &to_read(&mut Rng::named("pairs"), 3), READ_FAULTS, READ_APART);
    for _ in 0..2000 {
        let count = group.rng.skewed(1, 64);
        let call = to_read(&mut group.rng, count);
        group.compare(&call);
        mixed(group, &call, READ_FAULTS);
    }
}

/// Each number of the contents of a bundle of three set to others, and each Key ID of the lines to that of each other line.
fn every_field(group: &mut Group) {
    let accepted = to_read(&mut Rng::named("fields"), 3);
    let numbers = [0].into_iter().chain((0..3).flat_map(|line| [18 + 20 * line, 20 + 20 * line]));
    for at in numbers {
        let right = u16::from_be_bytes([accepted.file[at], accepted.file[at + 1]]);
        for near in 0..=600 {
            let wrong = right.wrapping_add(near).wrapping_sub(300);
            for value in [wrong, near, wrong ^ 0x8000] {
                let mut call = accepted.clone();
                call.file[at..at + 2].copy_from_slice(&value.to_be_bytes());
                group.compare(&call);
            }
        }
    }
    for first in 0..3 {
        for second in 0..3 {
            let mut call = accepted.clone();
            let id = call.file[2 + 20 * first..18 + 20 * first].to_vec();
            call.file[2 + 20 * second..18 + 20 * second].copy_from_slice(&id);
            group.compare(&call);
        }
    }
}

/// What the library writes reads back to the same attributes; what it reads, written again, is the same file.
pub fn round_trips(group: &mut Group) {
    for count in 1..=64 {
        for _ in 0..4 {
            let written = to_write(&mut group.rng, count);
            let file: Bytes = group.compare(&written)[..written.file_length()].to_vec().into();
            let reader = ReadBundle { file, room: written.attributes.len() };
            let attributes: Bytes = group.compare(&reader).into();
            group.check(attributes == written.attributes, || format!("{written:?} reads back as {attributes:?}"));
            let again: Bytes = group.compare(&WriteBundle { attributes, room: reader.file.len() }).into();
            group.check(again == reader.file, || format!("{reader:?} is written again as {again:?}"));
        }
    }
    let largest: Vec<Vec<u8>> = (0..64).map(|which| attribute(&mut group.rng, 192, &[which; 16])).collect();
    let call = WriteBundle { attributes: largest.concat().into(), room: 17410 };
    let file = group.compare(&call);
    group.check(file.len() == 17410, || format!("the largest bundle has {} bytes", file.len()));
}
