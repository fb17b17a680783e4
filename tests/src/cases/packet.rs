//! RADIUS packets signed and checked: bounds of every length, every fault of an attribute, the refusals, random packets, each bit flipped.

use super::{root_key, ROOT_KEY_LENGTHS};
use crate::call::{Call, Expected, Group, Ordered};
use crate::ffi::{self, Outcome};
use crate::guard::Lender;
use crate::model::packet::{Packet, ATTRIBUTE, MAC, MAC_AT};
use crate::model::Order;
use crate::pairs::{every_pair, mixed, Apart, Fault};
use crate::rng::Rng;

/// A packet that is to be checked.
#[derive(Clone, Debug)]
struct Received(Packet);

impl Call for Packet {
    type Answer = Outcome;

    fn expected(&self) -> Expected<Outcome> {
        match self.signed() {
            Ok(written) => Expected { answer: Outcome::accepted(32), written },
            Err(number) => Expected::nothing_written(Outcome::refused(number)),
        }
    }

    fn run(&self, lender: &mut Lender) -> Outcome {
        let key = lender.bytes("mac_key", &self.key);
        let packet = lender.changing("packet", &self.bytes);
        // SAFETY: all of it is lent.
        unsafe { ffi::kv_sign_packet(key.pointer, key.len, self.kind, packet.pointer, packet.len) }
    }
}

impl Ordered for Packet {
    fn order(&self) -> Order {
        self.tests()
    }
}

impl Ordered for Received {
    fn order(&self) -> Order {
        self.0.tests_and_mac()
    }
}

/// A call on a packet, signed or checked: the faults are those of the packet.
trait OnPacket {
    fn packet(&mut self) -> &mut Packet;
}

impl OnPacket for Packet {
    fn packet(&mut self) -> &mut Packet {
        self
    }
}

impl OnPacket for Received {
    fn packet(&mut self) -> &mut Packet {
        &mut self.0
    }
}

impl Call for Received {
    type Answer = Outcome;

    fn expected(&self) -> Expected<Outcome> {
        Expected::nothing_written(match self.0.checked() {
            Ok(()) => Outcome::accepted(0),
            Err(number) => Outcome::refused(number),
        })
    }

    fn run(&self, lender: &mut Lender) -> Outcome {
        let key = lender.bytes("mac_key", &self.0.key);
        let packet = lender.bytes("packet", &self.0.bytes);
        // SAFETY: all of it is lent.
        unsafe { ffi::kv_check_packet(key.pointer, key.len, self.0.kind, packet.pointer, packet.len) }
    }
}

/// Pairs of refusals that no input makes hold together.
pub const APART: &[Apart] = &[
    (1, 38, "38 is looked at only where all others pass"),
    (20, 38, "38 is looked at only where all others pass"),
    (35, 38, "38 is looked at only where all others pass"),
    (36, 38, "38 is looked at only where all others pass"),
    (37, 38, "38 is looked at only where all others pass"),
];

/// Writes the packet's length into its header.
fn with_length(packet: &mut Packet) {
    let len = packet.bytes.len() as u16;
    packet.bytes[2..4].copy_from_slice(&len.to_be_bytes());
}

/// A fault of 36, or 37, keeps the header right, so that it does not make 35 hold.
fn faults<C: OnPacket>() -> Vec<Fault<C>> {
    vec![
        (1, |call| call.packet().key.truncate(63)),
        (1, |call| call.packet().key.resize(129, 7)),
        (20, |call| {
            call.packet().kind = 0;
            call.packet().bytes[20] = 0;
        }),
        (35, |call| call.packet().bytes[3] ^= 1),
        (35, |call| call.packet().bytes[2] ^= 0x80),
        (36, |call| longer(call.packet(), &[1])),
        (36, |call| longer(call.packet(), &[1, 1])),
        (37, |call| call.packet().bytes[23] = 1),
        (37, |call| call.packet().bytes[22] = 1),
    ]
}

/// Those of a packet that is to be checked: the writer's, and a MAC that differs in one bit of its first byte, or of its last.
fn check_faults() -> Vec<Fault<Received>> {
    let mut faults = faults::<Received>();
    faults.push((38, |call| call.0.bytes[20 + MAC_AT] ^= 1));
    faults.push((38, |call| call.0.bytes[20 + MAC_AT + MAC - 1] ^= 0x80));
    faults
}

/// Adds bytes to the end, and their number to the header's length.
fn longer(packet: &mut Packet, more: &[u8]) {
    packet.bytes.extend_from_slice(more);
    packet.bytes[3] = packet.bytes[3].wrapping_add(more.len() as u8);
}

/// A packet whose first attribute is the MAC's, short enough that its header's high byte is 0.
fn plain(rng: &mut Rng) -> Packet {
    let mut bytes = rng.bytes(20);
    bytes.extend([90, 52, 0, 2]);
    bytes.extend(rng.bytes(48));
    bytes.extend([1, 6, 90, 52, 0, 2]);
    let mut packet = Packet { key: root_key(rng), kind: 90, bytes: bytes.into() };
    with_length(&mut packet);
    packet
}

/// A random accepted packet: attributes of other types around the MAC's.
fn random(rng: &mut Rng) -> Packet {
    let kind = 1 + rng.below(255) as u8;
    let mut bytes = rng.bytes(20);
    let room = rng.skewed(0, 4096 - 20 - ATTRIBUTE);
    let before = rng.below(room + 1);
    others(rng, kind, &mut bytes, 20 + before);
    bytes.extend([kind, 52, 0, 2]);
    bytes.extend(rng.bytes(48));
    others(rng, kind, &mut bytes, 20 + ATTRIBUTE + room);
    let mut packet = Packet { key: root_key(rng), kind, bytes: bytes.into() };
    with_length(&mut packet);
    packet
}

/// Attributes of other types, up to a length of the packet or a little less.
fn others(rng: &mut Rng, kind: u8, bytes: &mut Vec<u8>, end: usize) {
    while bytes.len() + 2 <= end {
        let size = (2 + rng.skewed(0, 253)).min(end - bytes.len());
        let mut other = rng.below(256) as u8;
        if other == kind {
            other = other.wrapping_add(1);
        }
        bytes.extend([other, size as u8]);
        bytes.extend(rng.bytes(size - 2));
    }
}

pub fn sign(group: &mut Group) {
    every_pair(group, &plain(&mut Rng::named("pairs")), &faults(), &[]);
    lengths(group);
    every_byte(group);
    for _ in 0..1500 {
        let packet = random(&mut group.rng);
        let signed = group.compare(&packet);
        let again = Packet { bytes: signed.into(), ..packet.clone() };
        group.compare(&again);
        group.compare(&Received(again.clone()));
        mixed(group, &packet, &faults());
    }
}

/// Each length of key and packet, with the header right and wrong.
fn lengths(group: &mut Group) {
    for len in (0..=140).chain(ROOT_KEY_LENGTHS) {
        let packet = plain(&mut group.rng);
        group.compare(&Packet { key: vec![0x5a; len].into(), ..packet });
    }
    for len in (0..=150).chain(4090..=4100).chain([65535, 65536, 65536 + 78]) {
        let mut packet = plain(&mut group.rng);
        packet.bytes.resize(len, 2);
        group.compare(&packet);
        if len >= 4 {
            with_length(&mut packet);
            group.compare(&packet);
        }
    }
    for room in 0..=4096 - 20 - ATTRIBUTE {
        if room % 61 == 0 || room > 4000 {
            let mut packet = plain(&mut group.rng);
            packet.bytes.truncate(72);
            let end = 72 + room;
            let mut bytes = packet.bytes.to_vec();
            others(&mut group.rng, 90, &mut bytes, end);
            packet.bytes = bytes.into();
            with_length(&mut packet);
            group.compare(&packet);
        }
    }
    // the most attributes: two bytes each
    let mut packet = plain(&mut group.rng);
    packet.bytes.truncate(72);
    while packet.bytes.len() + 2 <= 4096 {
        packet.bytes.extend([1, 2]);
    }
    with_length(&mut packet);
    group.compare(&packet);
}

/// Each value of each byte of the header and of the attribute's first four, and of the next attribute's type and length.
fn every_byte(group: &mut Group) {
    for at in (0..4).chain(20..24).chain(72..74) {
        for value in 0..=255 {
            let mut packet = plain(&mut group.rng);
            packet.bytes[at] = value;
            group.compare(&packet);
        }
    }
    for kind in 0..=255 {
        let packet = plain(&mut group.rng);
        group.compare(&Packet { kind, ..packet });
    }
}

pub fn check(group: &mut Group) {
    let packet = plain(&mut Rng::named("pairs"));
    let signed = Packet { bytes: packet.signed().expect("accepted").into(), ..packet };
    every_pair(group, &Received(signed), &check_faults(), APART);
    for len in (0..=140).chain(ROOT_KEY_LENGTHS) {
        let mut packet = plain(&mut group.rng);
        packet.key = vec![0x5a; len].into();
        group.compare(&Received(packet));
    }
    // every bit of a signed packet, and of its key
    for packet in [plain(&mut group.rng), random(&mut group.rng)] {
        let signed = Packet { bytes: packet.signed().expect("accepted").into(), ..packet };
        group.compare(&Received(signed.clone()));
        for bit in 0..8 * signed.bytes.len() {
            let mut flipped = signed.clone();
            flipped.bytes[bit / 8] ^= 1 << (bit % 8);
            group.compare(&Received(flipped.clone()));
            group.check(flipped.checked().is_err(), || format!("{flipped:?}: a bit that does not count"));
        }
        for bit in 0..8 * signed.key.len() {
            let mut flipped = signed.clone();
            flipped.key[bit / 8] ^= 1 << (bit % 8);
            group.compare(&Received(flipped));
        }
    }
    for _ in 0..1000 {
        let packet = random(&mut group.rng);
        let signed = Packet { bytes: packet.signed().expect("accepted").into(), ..packet };
        group.compare(&Received(signed.clone()));
        let mut spoilt = signed.clone();
        let at = group.rng.below(spoilt.bytes.len());
        spoilt.bytes[at] ^= 1 + group.rng.below(255) as u8;
        group.compare(&Received(spoilt));
        mixed(group, &Received(signed.clone()), &check_faults());
        group.compare(&Received(Packet { kind: signed.kind ^ 1, ..signed }));
    }
}
