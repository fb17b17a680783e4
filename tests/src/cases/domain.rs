//! The keys of a domain: bounds of every length, every value of a byte, the refusals, random requests, keys that must differ.

use super::{domain, root_key, with_byte, ROOT_KEY_LENGTHS};
use crate::bytes::Bytes;
use crate::call::{bytes_or_refusal, Call, Expected, Group, Ordered};
use crate::ffi::{self, Outcome};
use crate::guard::Lender;
use crate::model::domain::{DomainReauthKey, DomainRootKey, KEY, ROOT_LABEL};
use crate::model::usage::UsageKey;
use crate::model::Order;
use crate::pairs::{every_pair, mixed, Fault};
use crate::rng::Rng;

impl Call for DomainRootKey {
    type Answer = Outcome;

    fn expected(&self) -> Expected<Outcome> {
        bytes_or_refusal(self.key())
    }

    fn run(&self, lender: &mut Lender) -> Outcome {
        let emsk = lender.bytes("emsk", &self.emsk);
        let domain = lender.bytes("domain", &self.domain);
        let out = lender.room(self.room);
        // SAFETY: all of it is lent.
        unsafe { ffi::kv_domain_root_key(emsk.pointer, emsk.len, domain.pointer, domain.len, out.pointer, out.len) }
    }
}

impl Ordered for DomainRootKey {
    fn order(&self) -> Order {
        self.tests()
    }
}

impl Call for DomainReauthKey {
    type Answer = Outcome;

    fn expected(&self) -> Expected<Outcome> {
        bytes_or_refusal(self.key())
    }

    fn run(&self, lender: &mut Lender) -> Outcome {
        let dsrk = lender.bytes("dsrk", &self.dsrk);
        let out = lender.room(self.room);
        // SAFETY: all of it is lent.
        unsafe { ffi::kv_domain_reauth_key(dsrk.pointer, dsrk.len, out.pointer, out.len) }
    }
}

impl Ordered for DomainReauthKey {
    fn order(&self) -> Order {
        self.tests()
    }
}

/// All pairs of 1, 8, 6 can hold together, because each speaks of another slice.
const ROOT_FAULTS: &[Fault<DomainRootKey>] = &[
    (1, |call| call.emsk.truncate(63)),
    (1, |call| call.emsk.resize(129, 0)),
    (8, |call| call.domain.clear()),
    (8, |call| call.domain.resize(254, b'd')),
    (8, |call| call.domain.insert(0, b'_')),
    (8, |call| call.domain.push(b'@')),
    (6, |call| call.room = KEY - 1),
    (6, |call| call.room = 0),
];

/// 1 and 6 can hold together.
const REAUTH_FAULTS: &[Fault<DomainReauthKey>] = &[
    (1, |call| call.dsrk.truncate(63)),
    (1, |call| call.dsrk.push(0)),
    (1, |call| call.dsrk.resize(128, 0)),
    (1, |call| call.dsrk.clear()),
    (6, |call| call.room = KEY - 1),
    (6, |call| call.room = 0),
];

pub fn root_keys(group: &mut Group) {
    root_lengths(group);
    root_bytes(group);
    every_pair(group, &root(&mut Rng::named("pairs")), ROOT_FAULTS, &[]);
    for _ in 0..3000 {
        let accepted = root(&mut group.rng);
        group.compare(&accepted);
        mixed(group, &accepted, ROOT_FAULTS);
    }
    yards(group);
}

/// A random accepted request.
fn root(rng: &mut Rng) -> DomainRootKey {
    let room = KEY + rng.skewed(0, 40);
    DomainRootKey { emsk: root_key(rng), domain: domain(rng), room }
}

/// Each length in turn, the others accepted.
fn root_lengths(group: &mut Group) {
    let mut try_with = |change: &dyn Fn(&mut DomainRootKey)| {
        let mut call = root(&mut group.rng);
        change(&mut call);
        group.compare(&call);
    };
    for len in ROOT_KEY_LENGTHS {
        try_with(&|call| call.emsk = vec![0x5a; len].into());
    }
    for len in 0..=300 {
        try_with(&|call| call.domain = vec![b'9'; len].into());
    }
    for room in 0..=130 {
        try_with(&|call| call.room = room);
    }
}

/// Each value of a byte at the start, in the middle and at the end of a domain, and alone in it.
fn root_bytes(group: &mut Group) {
    for byte in 0..=255 {
        let accepted = root(&mut group.rng);
        group.compare(&DomainRootKey { domain: vec![byte].into(), ..accepted.clone() });
        for at in [0, 4, 8] {
            let domain = with_byte(b"2.example", at, byte);
            group.compare(&DomainRootKey { domain, ..accepted.clone() });
        }
    }
}

/// The two yards of request 6, whose VMSKs are one, and domains that begin alike have keys of their own. A usage request that asks for the
/// same bytes is refused with 31; with another label it has another key.
fn yards(group: &mut Group) {
    let emsk = root_key(&mut group.rng);
    let mut keys: Vec<Vec<u8>> = Vec::new();
    for domain in ["2.example", ".example", "example", "example.", "2.example.2", "a"] {
        let domain: Bytes = domain.into();
        keys.push(group.compare(&DomainRootKey { emsk: emsk.clone(), domain: domain.clone(), room: KEY }));
        for label in [ROOT_LABEL, "dsrk@ietf.or", "dsrk@ietf.org ", "Dsrk@ietf.org", "dsrk"] {
            let usage = UsageKey { emsk: emsk.clone(), label: label.into(), data: domain.clone(), n: 64, room: KEY };
            let key = group.compare(&usage);
            if label != ROOT_LABEL {
                keys.push(key);
            }
        }
    }
    for (place, key) in keys.iter().enumerate() {
        let differs = !keys[..place].contains(key);
        group.check(differs, || "two domains, or a domain and a usage key, share a key".into());
    }
}

/// Each length of the parent and of the output buffer, the refusals, and the keys of domains as parents.
pub fn reauth_keys(group: &mut Group) {
    for len in (0..=200).chain(ROOT_KEY_LENGTHS) {
        for room in [0, 63, 64, 65, 200] {
            let dsrk = group.rng.bytes(len).into();
            group.compare(&DomainReauthKey { dsrk, room });
        }
    }
    for room in 0..=130 {
        let dsrk = group.rng.bytes(KEY).into();
        group.compare(&DomainReauthKey { dsrk, room });
    }
    let accepted = DomainReauthKey { dsrk: group.rng.bytes(KEY).into(), room: KEY };
    every_pair(group, &accepted, REAUTH_FAULTS, &[]);
    for _ in 0..300 {
        let dsrk = root(&mut group.rng).key().expect("accepted").into();
        group.compare(&DomainReauthKey { dsrk, room: KEY });
    }
}
