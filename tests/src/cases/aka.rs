//! The keys of EAP-AKA': bounds of every length, the refusals, random requests, each input bit, the EMSK as a root key.

use crate::bytes::Bytes;
use crate::call::{bytes_or_refusal, Call, Expected, Group, Ordered};
use crate::ffi::{self, Outcome};
use crate::guard::Lender;
use crate::model::aka::{AkaKeys, KEYS};
use crate::model::usage::UsageKey;
use crate::model::Order;
use crate::pairs::{every_pair, mixed, Fault};
use crate::rng::Rng;

impl Call for AkaKeys {
    type Answer = Outcome;

    fn expected(&self) -> Expected<Outcome> {
        bytes_or_refusal(self.keys())
    }

    fn run(&self, lender: &mut Lender) -> Outcome {
        let ck = lender.bytes("ck", &self.ck);
        let ik = lender.bytes("ik", &self.ik);
        let name = lender.bytes("name", &self.name);
        let sqn = lender.bytes("sqn_xor_ak", &self.sqn_xor_ak);
        let identity = lender.bytes("identity", &self.identity);
        let out = lender.room(self.room);
        // SAFETY: all of it is lent.
        unsafe {
            ffi::kv_aka_keys(
                ck.pointer,
                ck.len,
                ik.pointer,
                ik.len,
                name.pointer,
                name.len,
                sqn.pointer,
                sqn.len,
                identity.pointer,
                identity.len,
                out.pointer,
                out.len,
            )
        }
    }
}

impl Ordered for AkaKeys {
    fn order(&self) -> Order {
        self.tests()
    }
}

/// All pairs of 43, 44, 45, 6 can hold together, because each speaks of another slice.
const FAULTS: &[Fault<AkaKeys>] = &[
    (43, |call| call.ck.truncate(15)),
    (43, |call| call.ck.clear()),
    (43, |call| call.ik.push(0)),
    (43, |call| call.sqn_xor_ak.truncate(5)),
    (43, |call| call.sqn_xor_ak.push(0)),
    (44, |call| call.name.resize(1017, b'n')),
    (44, |call| call.name.resize(65536 + 4, b'n')),
    (45, |call| call.identity.clear()),
    (45, |call| call.identity.resize(256, b'0')),
    (6, |call| call.room = KEYS - 1),
    (6, |call| call.room = 0),
];

pub fn run(group: &mut Group) {
    lengths(group);
    every_pair(group, &request(&mut Rng::named("pairs")), FAULTS, &[]);
    for _ in 0..2000 {
        let accepted = request(&mut group.rng);
        group.compare(&accepted);
        mixed(group, &accepted, FAULTS);
    }
    every_bit(group);
    emsk_is_root(group);
}

/// A random accepted request.
fn request(rng: &mut Rng) -> AkaKeys {
    let (name, identity) = (rng.skewed(0, 1016), rng.skewed(1, 255));
    AkaKeys {
        ck: rng.bytes(16).into(),
        ik: rng.bytes(16).into(),
        name: rng.bytes(name).into(),
        sqn_xor_ak: rng.bytes(6).into(),
        identity: rng.bytes(identity).into(),
        room: KEYS + rng.skewed(0, 40),
    }
}

/// Each length in turn, the others accepted.
fn lengths(group: &mut Group) {
    let mut try_with = |change: &dyn Fn(&mut AkaKeys)| {
        let mut call = request(&mut group.rng);
        change(&mut call);
        group.compare(&call);
    };
    for len in 0..=70 {
        try_with(&|call| call.ck = vec![0xc0; len].into());
        try_with(&|call| call.ik = vec![0xb0; len].into());
        try_with(&|call| call.sqn_xor_ak = vec![0xa0; len].into());
    }
    for len in (0..=140).chain(1000..=1030) {
        try_with(&|call| call.name = vec![b'n'; len].into());
    }
    for len in 0..=300 {
        try_with(&|call| call.identity = vec![b'0'; len].into());
    }
    for room in 0..=260 {
        try_with(&|call| call.room = room);
    }
}

/// Every bit of every input counts, and so does the place of a byte between name, SQN and identity.
fn every_bit(group: &mut Group) {
    let call = AkaKeys {
        ck: vec![0xc0; 16].into(),
        ik: vec![0xb0; 16].into(),
        name: "WLAN".into(),
        sqn_xor_ak: vec![0xa0; 6].into(),
        identity: "0555444333222111".into(),
        room: KEYS,
    };
    let plain = group.compare(&call);
    let inputs: [fn(&mut AkaKeys) -> &mut Bytes; 5] = [
        |call| &mut call.ck,
        |call| &mut call.ik,
        |call| &mut call.name,
        |call| &mut call.sqn_xor_ak,
        |call| &mut call.identity,
    ];
    for input in inputs {
        for bit in 0..8 * input(&mut call.clone()).len() {
            let mut changed = call.clone();
            input(&mut changed)[bit / 8] ^= 1 << (bit % 8);
            let keys = group.compare(&changed);
            group.check(keys != plain, || format!("{changed:?}: a bit that does not count"));
        }
    }
}

/// The EMSK of an accepted call is taken by the calls under an EMSK.
fn emsk_is_root(group: &mut Group) {
    for _ in 0..50 {
        let keys = request(&mut group.rng).keys().expect("accepted");
        group.compare(&UsageKey {
            emsk: keys[144..].into(),
            label: "gate@yard".into(),
            data: "12".into(),
            n: 32,
            room: 32,
        });
    }
}
