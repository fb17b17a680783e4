//! Handover keys and names: every length of each slice, the refusals, random requests, and keys down the hierarchy.

use super::with_byte;
use crate::bytes::Bytes;
use crate::call::{bytes_or_refusal, Call, Expected, Group, Ordered};
use crate::ffi::{self, Outcome};
use crate::guard::Lender;
use crate::model::handover::{R0Key, R0Name, R1Key, ID, KEY, NAME, RRK, SPA};
use crate::model::Order;
use crate::pairs::{every_pair, mixed, Fault};
use crate::rng::Rng;

impl Call for R0Key {
    type Answer = Outcome;

    fn expected(&self) -> Expected<Outcome> {
        bytes_or_refusal(self.key())
    }

    fn run(&self, lender: &mut Lender) -> Outcome {
        let rrk = lender.bytes("rrk", &self.rrk);
        let ad_id = lender.bytes("ad_id", &self.ad_id);
        let spa = lender.bytes("spa", &self.spa);
        let out = lender.room(self.room);
        // SAFETY: all of it is lent.
        unsafe {
            ffi::kv_r0_key(rrk.pointer, rrk.len, ad_id.pointer, ad_id.len, spa.pointer, spa.len, out.pointer, out.len)
        }
    }
}

impl Ordered for R0Key {
    fn order(&self) -> Order {
        self.tests()
    }
}

impl Call for R1Key {
    type Answer = Outcome;

    fn expected(&self) -> Expected<Outcome> {
        bytes_or_refusal(self.key())
    }

    fn run(&self, lender: &mut Lender) -> Outcome {
        let r0_key = lender.bytes("r0_key", &self.r0_key);
        let ad_id = lender.bytes("ad_id", &self.ad_id);
        let an_id = lender.bytes("an_id", &self.an_id);
        let spa = lender.bytes("spa", &self.spa);
        let out = lender.room(self.room);
        // SAFETY: all of it is lent.
        unsafe {
            ffi::kv_r1_key(
                r0_key.pointer,
                r0_key.len,
                ad_id.pointer,
                ad_id.len,
                an_id.pointer,
                an_id.len,
                spa.pointer,
                spa.len,
                out.pointer,
                out.len,
            )
        }
    }
}

impl Ordered for R1Key {
    fn order(&self) -> Order {
        self.tests()
    }
}

impl Call for R0Name {
    type Answer = Outcome;

    fn expected(&self) -> Expected<Outcome> {
        bytes_or_refusal(self.name())
    }

    fn run(&self, lender: &mut Lender) -> Outcome {
        let r0_key = lender.bytes("r0_key", &self.r0_key);
        let ad_id = lender.bytes("ad_id", &self.ad_id);
        let spa = lender.bytes("spa", &self.spa);
        let out = lender.room(self.room);
        // SAFETY: all of it is lent.
        unsafe {
            ffi::kv_r0_name(
                r0_key.pointer,
                r0_key.len,
                ad_id.pointer,
                ad_id.len,
                spa.pointer,
                spa.len,
                out.pointer,
                out.len,
            )
        }
    }
}

impl Ordered for R0Name {
    fn order(&self) -> Order {
        self.tests()
    }
}

/// All pairs of 33, 34, 6 can hold together, because each speaks of other slices.
const R0_FAULTS: &[Fault<R0Key>] = &[
    (33, |call| call.rrk.truncate(63)),
    (33, |call| call.rrk.truncate(32)),
    (33, |call| call.rrk.push(0)),
    (33, |call| call.rrk.clear()),
    (34, |call| call.ad_id.truncate(15)),
    (34, |call| call.ad_id.push(0)),
    (34, |call| call.spa.truncate(5)),
    (34, |call| call.spa.push(0)),
    (34, over_the_seam),
    (6, |call| call.room = KEY - 1),
    (6, |call| call.room = 0),
];

const R1_FAULTS: &[Fault<R1Key>] = &[
    (33, |call| call.r0_key.truncate(31)),
    (33, |call| call.r0_key.resize(64, 0)),
    (33, |call| call.r0_key.clear()),
    (34, |call| call.ad_id.truncate(15)),
    (34, |call| call.ad_id.push(0)),
    (34, |call| call.an_id.truncate(15)),
    (34, |call| call.an_id.push(0)),
    (34, |call| call.spa.truncate(5)),
    (34, |call| call.spa.push(0)),
    (6, |call| call.room = KEY - 1),
    (6, |call| call.room = 0),
];

const NAME_FAULTS: &[Fault<R0Name>] = &[
    (33, |call| call.r0_key.truncate(31)),
    (33, |call| call.r0_key.resize(64, 0)),
    (33, |call| call.r0_key.clear()),
    (34, |call| call.ad_id.truncate(15)),
    (34, |call| call.ad_id.push(0)),
    (34, |call| call.spa.truncate(5)),
    (34, |call| call.spa.push(0)),
    (6, |call| call.room = NAME - 1),
    (6, |call| call.room = 0),
];

/// The same context, with a byte of the AD-ID counted to the SPA.
fn over_the_seam(call: &mut R0Key) {
    let byte = call.ad_id.pop().unwrap_or(0);
    call.spa.insert(0, byte);
}

fn bytes(rng: &mut Rng, len: usize) -> Bytes {
    rng.bytes(len).into()
}

fn r0_request(rng: &mut Rng) -> R0Key {
    let room = KEY + rng.skewed(0, 40);
    R0Key { rrk: bytes(rng, RRK), ad_id: bytes(rng, ID), spa: bytes(rng, SPA), room }
}

fn r1_request(rng: &mut Rng) -> R1Key {
    let room = KEY + rng.skewed(0, 40);
    R1Key { r0_key: bytes(rng, KEY), ad_id: bytes(rng, ID), an_id: bytes(rng, ID), spa: bytes(rng, SPA), room }
}

fn name_request(rng: &mut Rng) -> R0Name {
    let room = NAME + rng.skewed(0, 40);
    R0Name { r0_key: bytes(rng, KEY), ad_id: bytes(rng, ID), spa: bytes(rng, SPA), room }
}

pub fn r0_keys(group: &mut Group) {
    for len in 0..=130 {
        let accepted = r0_request(&mut group.rng);
        let other = bytes(&mut group.rng, len);
        group.compare(&R0Key { rrk: other.clone(), ..accepted.clone() });
        group.compare(&R0Key { ad_id: other.clone(), ..accepted.clone() });
        group.compare(&R0Key { spa: other, ..accepted.clone() });
        group.compare(&R0Key { room: len, ..accepted });
    }
    every_pair(group, &r0_request(&mut Rng::named("pairs")), R0_FAULTS, &[]);
    for _ in 0..3000 {
        let accepted = r0_request(&mut group.rng);
        group.compare(&accepted);
        mixed(group, &accepted, R0_FAULTS);
    }
    second_half(group);
}

/// Only the first 32 bytes of an rRK count.
fn second_half(group: &mut Group) {
    let first = r0_request(&mut group.rng);
    let keys = [0, 32, 63].map(|at| {
        let rrk = with_byte(&first.rrk, at, !first.rrk[at]);
        group.compare(&R0Key { rrk, room: KEY, ..first.clone() })
    });
    group.check(keys[0] != keys[1] && keys[1] == keys[2], || "the rRK's second half shows in the R0-Key".into());
}

pub fn r1_keys(group: &mut Group) {
    for len in 0..=130 {
        let accepted = r1_request(&mut group.rng);
        let other = bytes(&mut group.rng, len);
        group.compare(&R1Key { r0_key: other.clone(), ..accepted.clone() });
        group.compare(&R1Key { ad_id: other.clone(), ..accepted.clone() });
        group.compare(&R1Key { an_id: other.clone(), ..accepted.clone() });
        group.compare(&R1Key { spa: other, ..accepted.clone() });
        group.compare(&R1Key { room: len, ..accepted });
    }
    every_pair(group, &r1_request(&mut Rng::named("pairs")), R1_FAULTS, &[]);
    for _ in 0..3000 {
        let accepted = r1_request(&mut group.rng);
        group.compare(&accepted);
        mixed(group, &accepted, R1_FAULTS);
    }
}

pub fn r0_names(group: &mut Group) {
    for len in 0..=130 {
        let accepted = name_request(&mut group.rng);
        let other = bytes(&mut group.rng, len);
        group.compare(&R0Name { r0_key: other.clone(), ..accepted.clone() });
        group.compare(&R0Name { ad_id: other.clone(), ..accepted.clone() });
        group.compare(&R0Name { spa: other, ..accepted.clone() });
        group.compare(&R0Name { room: len, ..accepted });
    }
    every_pair(group, &name_request(&mut Rng::named("pairs")), NAME_FAULTS, &[]);
    for _ in 0..3000 {
        let accepted = name_request(&mut group.rng);
        group.compare(&accepted);
        mixed(group, &accepted, NAME_FAULTS);
    }
}

/// A handover: the R0-Key that the library made names itself and derives the R1-Keys of two access nodes.
pub fn handovers(group: &mut Group) {
    for _ in 0..200 {
        let first = R0Key { room: KEY, ..r0_request(&mut group.rng) };
        let r0_key: Bytes = group.compare(&first).into();
        let (ad_id, spa) = (first.ad_id, first.spa);
        group.compare(&R0Name { r0_key: r0_key.clone(), ad_id: ad_id.clone(), spa: spa.clone(), room: NAME });
        let nodes = [bytes(&mut group.rng, ID), bytes(&mut group.rng, ID)];
        let keys = nodes.map(|an_id| {
            let (r0_key, ad_id, spa) = (r0_key.clone(), ad_id.clone(), spa.clone());
            group.compare(&R1Key { r0_key, ad_id, an_id, spa, room: KEY })
        });
        group.check(keys[0] != keys[1], || "two access nodes have one R1-Key".into());
    }
}
