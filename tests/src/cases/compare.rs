//! Two bundles compared: each kind, every bit of an attribute and of a Key ID changed, other orders, up to 64 attributes each, the room, every
//! refusal of the one file with every refusal of the other, random bundles.

use super::bundle::{attribute, attributes, to_read, READ_FAULTS};
use crate::bytes::Bytes;
use crate::call::{Call, Expected, Group};
use crate::ffi::{self, Comparison};
use crate::guard::Lender;
use crate::model::bundle::{file_of, ReadBundle};
use crate::model::compare::{count, written, CompareBundles, CHANGED, ONLY_FIRST, ONLY_SECOND};
use crate::model::{numbers_that_hold, Refusal};
use crate::pairs::Fault;
use crate::rng::Rng;
use std::collections::BTreeSet;

impl Call for CompareBundles {
    type Answer = Comparison;

    fn expected(&self) -> Expected<Comparison> {
        match self.listed() {
            Ok(entries) => {
                let [only_first, changed, only_second] =
                    [ONLY_FIRST, CHANGED, ONLY_SECOND].map(|kind| count(&entries, kind));
                let answer = Comparison { refusal: 0, only_first, changed, only_second };
                Expected { answer, written: written(&entries) }
            }
            Err(refusal) => Expected::nothing_written(Comparison { refusal, ..Comparison::default() }),
        }
    }

    fn run(&self, lender: &mut Lender) -> Comparison {
        let first = lender.bytes("first", &self.first);
        let (second, second_len) = if self.same_memory {
            (first.pointer, first.len)
        } else {
            let lent = lender.bytes("second", &self.second);
            (lent.pointer, lent.len)
        };
        let out = lender.room(self.room);
        // SAFETY: all of it is lent.
        unsafe { ffi::kv_compare_bundles(first.pointer, first.len, second, second_len, out.pointer, out.len) }
    }
}

/// The comparison of two bundles of these attributes, with exactly the room that it needs.
fn comparison(first: &[Vec<u8>], second: &[Vec<u8>]) -> CompareBundles {
    let file = |bodies: &[Vec<u8>]| file_of(&bodies.iter().map(|body| &body[..]).collect::<Vec<_>>());
    let mut call =
        CompareBundles { first: file(first).into(), second: file(second).into(), room: 0, same_memory: false };
    call.room = 17 * call.entries().len();
    call
}

/// Compares with no room, a byte too few, just enough, and more.
fn with_every_room(group: &mut Group, call: &CompareBundles) {
    let full = call.room;
    for room in [0, full.saturating_sub(1), full, full + 1, 2176] {
        group.compare(&CompareBundles { room, ..call.clone() });
    }
}

/// The same in any order.
fn shuffled(rng: &mut Rng, mut bodies: Vec<Vec<u8>>) -> Vec<Vec<u8>> {
    for place in (1..bodies.len()).rev() {
        bodies.swap(place, rng.below(place + 1));
    }
    bodies
}

/// The bytes of an attribute that may be any others but for the type, which is not 0: all but length, reserved byte, Enc Type, Key ID and IV.
fn is_free(place: usize) -> bool {
    matches!(place, 0 | 4..=23 | 40..=43 | 52..)
}

/// An attribute of the same Key ID that differs: in one bit, in its length, or in all that may differ.
fn changed(rng: &mut Rng, body: &[u8]) -> Vec<u8> {
    let key_len = body.len() - 60;
    match rng.below(3) {
        0 => {
            let free: Vec<usize> = (0..body.len()).filter(|&place| is_free(place)).collect();
            let mut near = body.to_vec();
            let place = rng.pick(&free);
            near[place] ^= 1 << rng.below(8);
            if near[0] == 0 {
                near[0] = body[0] ^ 0xff;
            }
            near
        }
        1 => {
            let others: Vec<usize> = (2..=24).map(|words| 8 * words).filter(|&other| other != key_len).collect();
            let other = rng.pick(&others);
            let mut resized = body.to_vec();
            resized.resize(60 + other, 0x55);
            resized[1] = (60 + other) as u8;
            resized
        }
        _ => attribute(rng, key_len, &body[24..40]),
    }
}

/// Two bundles with so many Key IDs whose attributes agree, whose attributes differ, and that stand in one of them alone, each in any order.
fn mixture(rng: &mut Rng, agree: usize, differ: usize, only_first: usize, only_second: usize) -> CompareBundles {
    let both = agree + differ;
    let bodies = attributes(rng, both + only_first + only_second);
    let first = bodies[..both + only_first].to_vec();
    let mut second = bodies[..agree].to_vec();
    second.extend(bodies[agree..both].iter().map(|body| changed(rng, body)));
    second.extend(bodies[both + only_first..].iter().cloned());
    if rng.once_in(4) {
        return comparison(&first, &second);
    }
    comparison(&shuffled(rng, first), &shuffled(rng, second))
}

pub fn run(group: &mut Group) {
    each_kind(group);
    every_count(group);
    every_bit(group);
    same_memory(group);
    refusals(group);
    every_bit_of_a_file(group);
    for _ in 0..3000 {
        let both = group.rng.skewed(0, 64);
        let differ = group.rng.below(both + 1);
        let only_first = group.rng.between((both == 0).into(), 64 - both);
        let only_second = group.rng.between((both == 0).into(), 64 - both);
        let call = mixture(&mut group.rng, both - differ, differ, only_first, only_second);
        let room = call.room + group.rng.skewed(0, 40);
        group.compare(&CompareBundles { room, ..call });
    }
}

/// Up to three Key IDs of each kind and of those that agree.
fn each_kind(group: &mut Group) {
    for counts in 0..256 {
        let [agree, differ, only_first, only_second] = [counts & 3, counts >> 2 & 3, counts >> 4 & 3, counts >> 6];
        let both = agree + differ;
        if both + only_first > 0 && both + only_second > 0 {
            let call = mixture(&mut group.rng, agree, differ, only_first, only_second);
            with_every_room(group, &call);
        }
    }
}

/// From 1 to 64 Key IDs: all agree, in the same order and in another; all differ; no Key ID stands in both.
fn every_count(group: &mut Group) {
    for n in 1..=64 {
        let bodies = attributes(&mut group.rng, n);
        with_every_room(group, &comparison(&bodies, &bodies));
        let others = shuffled(&mut group.rng, bodies.clone());
        with_every_room(group, &comparison(&bodies, &others));
        let all_changed: Vec<_> = others.iter().map(|body| changed(&mut group.rng, body)).collect();
        with_every_room(group, &comparison(&bodies, &all_changed));
        for other in [1, 65 - n, 64] {
            let call = mixture(&mut group.rng, 0, 0, n, other);
            with_every_room(group, &call);
        }
    }
    let largest = mixture(&mut group.rng, 0, 0, 64, 64);
    group.check(largest.room == 2176, || format!("the longest list has {} bytes", largest.room));
}

/// Each bit of an attribute that may be another, and each bit of its Key ID, changed in the middle one of three.
fn every_bit(group: &mut Group) {
    for key_len in [16, 24, 192] {
        let bodies: Vec<_> = [1, 2, 3].map(|id| attribute(&mut group.rng, key_len, &[id; 16])).to_vec();
        for bit in 0..8 * (60 + key_len) {
            let place = bit / 8;
            let mut others = bodies.clone();
            others[1][place] ^= 1 << (bit % 8);
            if others[1][0] != 0 && (is_free(place) || (24..40).contains(&place)) {
                let call = comparison(&bodies, &others);
                let entries = if is_free(place) { 1 } else { 2 };
                group.check(call.entries().len() == entries, || format!("{call:?} has not {entries} entries"));
                group.compare(&call);
            }
        }
    }
}

/// A file against itself, lent twice and lent once.
fn same_memory(group: &mut Group) {
    for n in 1..=64 {
        let bodies = attributes(&mut group.rng, n);
        let call = comparison(&bodies, &bodies);
        group.check(call.room == 0, || format!("{call:?} differs from itself"));
        for room in [0, 1, 2176] {
            group.compare(&CompareBundles { room, same_memory: true, ..call.clone() });
        }
    }
    let mut spoilt = comparison(&attributes(&mut group.rng, 2), &[]);
    for len in 0..spoilt.first.len() {
        spoilt.first.truncate(len);
        spoilt.second = spoilt.first.clone();
        group.compare(&CompareBundles { room: 100, same_memory: true, ..spoilt.clone() });
    }
}

/// Each fault of the one file with each of the other and with none, with room and without; and that no two numbers were left out.
fn refusals(group: &mut Group) {
    let accepted = comparison(&attributes(&mut group.rng, 3), &attributes(&mut group.rng, 3));
    let faults: Vec<Option<&Fault<ReadBundle>>> =
        [None].into_iter().chain(READ_FAULTS.iter().filter(|fault| fault.0 != 6).map(Some)).collect();
    let mut met = BTreeSet::new();
    for &of_first in &faults {
        for &of_second in &faults {
            let mut call = accepted.clone();
            spoil(&mut call.first, of_first);
            spoil(&mut call.second, of_second);
            with_every_room(group, &call);
            met.insert(call.contents_tests().map(|order| numbers_that_hold(&order).first().copied()));
        }
    }
    let numbers: BTreeSet<Option<Refusal>> = faults.iter().map(|fault| fault.map(|fault| fault.0)).collect();
    for first in &numbers {
        for second in &numbers {
            group.check(met.contains(&[*first, *second]), || {
                format!("no input was tried with {first:?} of the first file and {second:?} of the second")
            });
        }
    }
}

/// Makes a fault in a file.
fn spoil(file: &mut Bytes, fault: Option<&Fault<ReadBundle>>) {
    if let Some((_, make)) = fault {
        let mut reader = ReadBundle { file: file.clone(), room: 0 };
        make(&mut reader);
        *file = reader.file;
    }
}

/// Each bit of one of two small files flipped, and each of their beginnings.
fn every_bit_of_a_file(group: &mut Group) {
    let (first, second) = (to_read(&mut Rng::named("first"), 2).file, to_read(&mut Rng::named("second"), 2).file);
    let call = CompareBundles { first, second, room: 2176, same_memory: false };
    for bit in 0..8 * call.first.len() {
        let mut flipped = call.clone();
        flipped.first[bit / 8] ^= 1 << (bit % 8);
        group.compare(&flipped);
    }
    for bit in 0..8 * call.second.len() {
        let mut flipped = call.clone();
        flipped.second[bit / 8] ^= 1 << (bit % 8);
        group.compare(&flipped);
    }
    for len in 0..call.first.len() {
        group.compare(&CompareBundles { first: call.first[..len].into(), ..call.clone() });
    }
    for len in 0..call.second.len() {
        group.compare(&CompareBundles { second: call.second[..len].into(), ..call.clone() });
    }
}
