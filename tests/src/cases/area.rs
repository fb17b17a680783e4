//! Attribute areas: what an area may hold, every kind of damage, the refusals in every order, and long areas.

use super::with_byte;
use crate::bytes::Bytes;
use crate::call::{Call, Expected, Group};
use crate::ffi::{self, Area};
use crate::guard::{machine_bytes, Lender};
use crate::model::area::{ReadArea, Way, AT_KDF, AT_KDF_INPUT, MOST_OFFERS};
use crate::model::Refusal;
use crate::pairs::Apart;
use crate::rng::Rng;

/// The longest name that an AT_KDF_INPUT holds: 254 words.
const LONGEST_NAME: usize = 1016;

/// Every two numbers of 6, 16, 17, 18, 29, 19, 10, 30 can hold together, but not in each of their senses.
pub const APART: &[Apart] = &[
    (18, 19, "in its sense of no name: an AT_KDF_INPUT is there, though faulty"),
    (29, 19, "in its sense of no name: an AT_KDF_INPUT is there, though faulty"),
    (19, 30, "no name, or a second, so that none is compared"),
    (19, 19, "no name and a repeated one"),
    (10, 10, "no offer and an eighteenth one"),
];

impl Call for ReadArea {
    type Answer = Area;

    fn expected(&self) -> Expected<Area> {
        match self.contents() {
            Ok(contents) => Expected {
                answer: Area {
                    refusal: 0,
                    offers: contents.offers.len() as u32,
                    at: 0,
                    name_at: contents.name_at as u64,
                    name_len: contents.name_len as u64,
                    same_name: contents.same_name.into(),
                },
                written: machine_bytes(&contents.offers),
            },
            Err(refusal) => {
                let at = self.place(refusal) as u64;
                Expected::nothing_written(Area { refusal, at, ..Area::default() })
            }
        }
    }

    fn run(&self, lender: &mut Lender) -> Area {
        let area = lender.bytes("area", &self.area);
        let own_name = lender.bytes("own_name", &self.own_name);
        let out = lender.room_for_values(self.room);
        // SAFETY: all of it is lent.
        unsafe {
            match self.way {
                Way::Strict => {
                    ffi::kv_read_area(area.pointer, area.len, own_name.pointer, own_name.len, out.pointer, out.len)
                }
                Way::Lenient => ffi::kv_read_area_lenient(
                    area.pointer,
                    area.len,
                    own_name.pointer,
                    own_name.len,
                    out.pointer,
                    out.len,
                ),
            }
        }
    }
}

pub fn run(group: &mut Group) {
    rooms(group);
    offer_counts(group);
    names(group);
    name_length_fields(group);
    paddings(group);
    damage(group);
    refusals(group);
    long_areas(group);
    random_areas(group);
    short_names(group);
    long_names(group);
}

/// Compares a reading by both ways.
fn compare(group: &mut Group, area: &Bytes, own_name: &Bytes, room: usize) {
    for way in [Way::Strict, Way::Lenient] {
        group.compare(&ReadArea { area: area.clone(), own_name: own_name.clone(), way, room });
    }
}

/// An AT_KDF with this value.
fn kdf(value: u16) -> Vec<u8> {
    [&[AT_KDF, 1], &value.to_be_bytes()[..]].concat()
}

/// An AT_KDF_INPUT with this name and zero padding.
fn kdf_input(name: &[u8]) -> Vec<u8> {
    let words = 1 + name.len().div_ceil(4);
    let mut bytes = vec![AT_KDF_INPUT, words as u8];
    bytes.extend((name.len() as u16).to_be_bytes());
    bytes.extend(name);
    bytes.resize(4 * words, 0);
    bytes
}

/// An attribute of another type, of so many words.
fn other(rng: &mut Rng, words: u8) -> Vec<u8> {
    let kind = loop {
        let kind = rng.next() as u8;
        if kind != AT_KDF && kind != AT_KDF_INPUT {
            break kind;
        }
    };
    let mut bytes = rng.bytes(4 * usize::from(words));
    bytes[0] = kind;
    bytes[1] = words;
    bytes
}

fn offers(count: usize) -> Vec<u8> {
    (0..count).flat_map(|value| kdf(value as u16 * 257)).collect()
}

/// Compares the reading of an area with room enough and the name WLN as the peer's own.
fn read(group: &mut Group, area: &[u8]) {
    compare(group, &area.into(), &"WLN".into(), MOST_OFFERS);
}

/// Each room, for an area with few offers, with 17, and for broken ones: 6 comes before everything else.
fn rooms(group: &mut Group) {
    let name = kdf_input(b"WLN");
    let areas = [
        [offers(2), name.clone()].concat(),
        [offers(17), name.clone()].concat(),
        [offers(18), name.clone()].concat(),
        [name, vec![9]].concat(),
        vec![],
    ];
    for area in areas {
        for room in 0..=40 {
            for own_name in ["WLN", ""] {
                compare(group, &area.clone().into(), &own_name.into(), room);
            }
        }
    }
}

/// Each count of offers up to 20, with the name before, between and after them; values may repeat.
fn offer_counts(group: &mut Group) {
    let name = kdf_input(b"WLN");
    for count in 0..=20 {
        for before in 0..=count {
            let area = [offers(before), name.clone(), offers(count - before)].concat();
            read(group, &area);
        }
        let same = [name.clone(), kdf(7).repeat(count)].concat();
        read(group, &same);
    }
}

/// Each length of a name, against the peer's own name: equal, differing, of another length, empty.
fn names(group: &mut Group) {
    for len in 0..=LONGEST_NAME {
        let name = group.rng.bytes(len);
        let place = group.rng.below(3);
        let start: Vec<u8> = (0..place).flat_map(|_| other(&mut group.rng, 3)).collect();
        let area: Bytes = [start, kdf_input(&name), kdf(1)].concat().into();
        for own_name in own_names(&mut group.rng, &name) {
            compare(group, &area, &own_name, 20);
        }
    }
}

/// The name itself, it with one byte changed, at its ends and anywhere, one byte shorter or longer, and none.
fn own_names(rng: &mut Rng, name: &[u8]) -> Vec<Bytes> {
    let mut own: Vec<Bytes> = vec![name.into(), [name, &[0]].concat().into(), Bytes::default()];
    if let Some(last) = name.len().checked_sub(1) {
        own.push(name[..last].into());
        own.push(name[1..].into());
        for at in [0, last, rng.below(name.len())] {
            own.push(with_byte(name, at, name[at] ^ 1 << rng.below(8)));
        }
    }
    own
}

/// Each value of the name length field against few lengths of the attribute, also where they agree modulo 256 words.
fn name_length_fields(group: &mut Group) {
    for words in [1, 2, 255] {
        let mut area = [kdf(1), vec![AT_KDF_INPUT, words], vec![0; 4 * usize::from(words) - 2]].concat();
        for name_len in 0..=u16::MAX {
            area[6..8].copy_from_slice(&name_len.to_be_bytes());
            read(group, &area);
        }
    }
}

/// Each padding byte with each value, after short names and the longest.
fn paddings(group: &mut Group) {
    for len in (0..=9).chain(LONGEST_NAME - 4..=LONGEST_NAME) {
        let area = [kdf(1), kdf_input(&group.rng.bytes(len))].concat();
        for at in 8 + len..area.len() {
            for byte in 0..=255 {
                read(group, &with_byte(&area, at, byte));
            }
        }
    }
}

/// An area of every kind of attribute, cut at each byte, with each byte set to each value, and with two changes.
fn damage(group: &mut Group) {
    let whole = [
        other(&mut group.rng, 2),
        kdf(2),
        kdf(1),
        kdf_input(b"WLN"),
        vec![0, 1, 0, 0],
        kdf(513),
        other(&mut group.rng, 5),
    ]
    .concat();
    for end in 0..=whole.len() {
        read(group, &whole[..end]);
        read(group, &whole[end..]);
    }
    for at in 0..whole.len() {
        for byte in 0..=255 {
            read(group, &with_byte(&whole, at, byte));
        }
    }
    for _ in 0..50_000 {
        let mut area = whole.clone();
        change_a_byte(&mut group.rng, &mut area);
        change_a_byte(&mut group.rng, &mut area);
        read(group, &area);
    }
}

/// Changes one bit, or puts a number that may well be a length or a type.
fn change_a_byte(rng: &mut Rng, bytes: &mut [u8]) {
    let at = rng.below(bytes.len());
    bytes[at] = if rng.once_in(2) { rng.below(26) as u8 } else { bytes[at] ^ 1 << rng.below(8) };
}

/// An attribute that is refused wherever the walk meets it, after a sound name; by kind of fault.
fn faulty_attributes() -> Vec<(Refusal, Vec<u8>)> {
    vec![
        (16, vec![9, 0, 0, 0]),
        (16, vec![AT_KDF, 0, 0, 1]),
        (16, vec![AT_KDF_INPUT, 0, 0, 0]),
        (17, vec![AT_KDF, 2, 0, 1, 0, 0, 0, 0]),
        (18, vec![AT_KDF_INPUT, 1, 0, 1]),
        (18, vec![AT_KDF_INPUT, 2, 0, 0, 0, 0, 0, 0]),
        (29, vec![AT_KDF_INPUT, 2, 0, 3, 87, 76, 78, 1]),
        (29, vec![AT_KDF_INPUT, 2, 0, 1, 87, 1, 0, 0]),
        (19, kdf_input(b"WLN")),
        (19, kdf_input(b"")),
        (10, offers(MOST_OFFERS + 1)),
    ]
}

/// An end of an area that can only stand last.
fn faulty_ends() -> Vec<(Refusal, Vec<u8>)> {
    vec![
        (16, vec![9]),
        (16, vec![AT_KDF]),
        (16, vec![9, 1]),
        (16, vec![AT_KDF, 1, 0]),
        (16, vec![AT_KDF, 2, 0, 1]),
        (16, vec![AT_KDF_INPUT, 2, 0, 9, 1, 1, 1]),
        (16, vec![9, 255, 0, 0]),
    ]
}

/// Two faults in one attribute, or in what the end of the walk looks at: the number that comes first in the order.
/// 17 with 18 and 19 with 10 are not here: they speak of attributes of two types.
fn double_faults() -> Vec<(Refusal, Vec<u8>)> {
    let name = kdf_input(b"WLN");
    vec![
        // 16 before 17: past the end, and not of length 1
        (16, [&name[..], &[AT_KDF, 2, 0, 1]].concat()),
        // 16 before 18: past the end, and a name length that disagrees
        (16, [&kdf(1)[..], &[AT_KDF_INPUT, 3, 0, 1, 87, 0, 0, 0]].concat()),
        // 16 before 19: past the end, and the second name
        (16, [&name[..], &kdf(1), &name[..7]].concat()),
        // 16 before 10: past the end, and the eighteenth AT_KDF
        (16, [&name[..], &offers(18)[..71]].concat()),
        // 17 before 10: of wrong length, and the eighteenth
        (17, [&name[..], &offers(17), &[AT_KDF, 2, 0, 1, 0, 0, 0, 0]].concat()),
        (17, [&offers(17)[..], &[AT_KDF, 3, 0, 1], &[0; 8], &name].concat()),
        // 18 before 29: a name length that disagrees, and what follows the name is not zero
        (18, [&kdf(1)[..], &[AT_KDF_INPUT, 3, 0, 3, 87, 76, 78, 1, 0, 0, 0, 0]].concat()),
        // 18 and 29 before 19: a name length that disagrees, then padding, each in a second name
        (18, [&name[..], &kdf(1), &[AT_KDF_INPUT, 2, 0, 9, 0, 0, 0, 0]].concat()),
        (29, [&name[..], &kdf(1), &[AT_KDF_INPUT, 2, 0, 1, 87, 0, 0, 1]].concat()),
        // 16 before 29: past the end, and padding that is not zero
        (16, [&kdf(1)[..], &[AT_KDF_INPUT, 2, 0, 1, 87, 1, 1]].concat()),
        // 16 before 19 and 10 at the end of the walk
        (16, vec![9]),
        (16, vec![9, 0]),
        (16, vec![9, 2, 0, 0]),
        // 17 and 18 before 19 and 10 at the end of the walk
        (17, vec![AT_KDF, 2, 0, 1, 0, 0, 0, 0]),
        (18, vec![AT_KDF_INPUT, 1, 0, 1]),
        (29, vec![AT_KDF_INPUT, 2, 0, 1, 87, 1, 0, 0]),
        // 19 repeated before 10 at the end of the walk
        (19, name.repeat(2)),
        // 10 in the walk before 19 at its end
        (10, offers(18)),
        // 19 before 10 at the end of the walk
        (19, vec![]),
        (19, vec![9, 1, 0, 0]),
        // each alone
        (10, name),
        (19, kdf(1)),
    ]
}

/// Every fault alone, every two in both places, both in one attribute; and each of these with 6, which comes first.
fn refusals(group: &mut Group) {
    let sound = [kdf_input(b"WLN"), kdf(1)].concat();
    let between = other(&mut group.rng, 4);
    let (inner, ends) = (faulty_attributes(), faulty_ends());
    for (number, fault) in inner.iter().chain(&ends) {
        refused(group, *number, &[&sound, fault]);
    }
    for (number, first) in &inner {
        for (_, second) in inner.iter().chain(&ends) {
            refused(group, *number, &[&sound, first, second]);
            refused(group, *number, &[&sound, first, &between, second]);
        }
    }
    for (number, area) in double_faults() {
        refused(group, number, &[&area]);
    }
}

/// Compares the reading, which has to be refused by this number, and by 6 where there is room for 16 values only.
fn refused(group: &mut Group, number: Refusal, parts: &[&[u8]]) {
    for (room, number) in [(MOST_OFFERS, number), (MOST_OFFERS - 1, 6), (0, 6)] {
        // a differing name changes nothing: 30 comes last
        for own_name in ["WLN", "WLM"] {
            for way in [Way::Strict, Way::Lenient] {
                let call = ReadArea { area: parts.concat().into(), own_name: own_name.into(), way, room };
                group.check(call.contents() == Err(number), || format!("{call:?} was made to be refused by {number}"));
                group.compare(&call);
            }
        }
    }
}

/// 100 KiB of attributes that are stepped over, with the offers and the name at the end or missing.
fn long_areas(group: &mut Group) {
    for words in [1, 3, 255] {
        let count = (100 << 10) / (4 * usize::from(words));
        let long: Vec<u8> = (0..count).flat_map(|_| other(&mut group.rng, words)).collect();
        read(group, &long);
        read(group, &[&long[..], &offers(17), &kdf_input(b"WLN")].concat());
        read(group, &[&kdf(5)[..], &long, &kdf_input(b"WLM")].concat());
        read(group, &[&kdf_input(b"WLN")[..], &kdf(5), &long, &[9]].concat());
    }
}

/// Random attributes one after another, most of them sound, now and then cut short.
fn random_areas(group: &mut Group) {
    for _ in 0..30_000 {
        let rng = &mut group.rng;
        let len = rng.skewed(0, 40);
        let name = rng.bytes(len);
        let mut parts: Vec<Vec<u8>> = (0..rng.below(12)).map(|_| random_attribute(rng)).collect();
        parts.insert(rng.below(parts.len() + 1), kdf_input(&name));
        let mut area = parts.concat();
        if rng.once_in(4) {
            area.truncate(rng.below(area.len() + 1));
        }
        let own_name = if rng.once_in(2) { name } else { rng.bytes(len) };
        let room = rng.between(16, 30);
        compare(group, &area.into(), &own_name.into(), room);
    }
}

fn random_attribute(rng: &mut Rng) -> Vec<u8> {
    match rng.below(24) {
        0..=12 => kdf(rng.next() as u16),
        13..=22 => {
            let words = rng.between(1, 6) as u8;
            other(rng, words)
        }
        _ => rng.pick(&faulty_attributes()).1,
    }
}

/// Every two names of up to five bytes over ":", "F" and "O", each as the network's and as the peer's own.
fn short_names(group: &mut Group) {
    let mut names: Vec<Vec<u8>> = vec![vec![]];
    for from in 0..364 {
        if names[from].len() < 5 {
            for byte in *b":FO" {
                names.push([&names[from][..], &[byte]].concat());
            }
        }
    }
    for name in &names {
        let area: Bytes = [kdf(1), kdf_input(name)].concat().into();
        for own_name in &names {
            compare(group, &area, &own_name[..].into(), MOST_OFFERS);
        }
    }
}

/// The longest name, and own names that go on after it, with a colon and without; and an own name that is longer than any attribute holds.
fn long_names(group: &mut Group) {
    let name = vec![b'x'; LONGEST_NAME];
    let area: Bytes = [kdf(1), kdf_input(&name)].concat().into();
    for end in [&b""[..], b":", b":y", b"y", b"x", b"y:"] {
        for more in [0, 1, 70_000] {
            compare(group, &area, &[&name[..], end, &vec![b'z'; more]].concat()[..].into(), MOST_OFFERS);
        }
    }
}
