//! Visited-domain keys: bounds of every length, every value of a byte, the refusals, random requests.

use super::{domain, root_key, with_byte, ROOT_KEY_LENGTHS};
use crate::bytes::Bytes;
use crate::call::{bytes_or_refusal, Call, Expected, Group, Ordered};
use crate::ffi::{self, Outcome};
use crate::guard::Lender;
use crate::model::visited::{reauth_text, root_text, FixedTextKey, MasterKey, KEY};
use crate::model::Order;
use crate::pairs::{every_pair, mixed, Fault};
use crate::rng::Rng;

/// A call of the library that takes a root key and an output buffer.
type Exported = unsafe extern "C" fn(*const u8, usize, *mut u8, usize) -> Outcome;

/// A key with a fixed text, and the call that derives it.
#[derive(Clone, Debug)]
struct FixedText {
    key: FixedTextKey,
    call: Exported,
}

impl Call for FixedText {
    type Answer = Outcome;

    fn expected(&self) -> Expected<Outcome> {
        bytes_or_refusal(self.key.key())
    }

    fn run(&self, lender: &mut Lender) -> Outcome {
        let parent = lender.bytes("root key", &self.key.parent);
        let out = lender.room(self.key.room);
        // SAFETY: all of it is lent.
        unsafe { (self.call)(parent.pointer, parent.len, out.pointer, out.len) }
    }
}

impl Ordered for FixedText {
    fn order(&self) -> Order {
        self.key.tests()
    }
}

impl Call for MasterKey {
    type Answer = Outcome;

    fn expected(&self) -> Expected<Outcome> {
        bytes_or_refusal(self.key())
    }

    fn run(&self, lender: &mut Lender) -> Outcome {
        let vrk = lender.bytes("vrk", &self.vrk);
        let server_id = lender.bytes("server_id", &self.server_id);
        let domain = lender.bytes("domain", &self.domain);
        let out = lender.room(self.room);
        // SAFETY: all of it is lent.
        unsafe {
            ffi::kv_visited_master_key(
                vrk.pointer,
                vrk.len,
                server_id.pointer,
                server_id.len,
                domain.pointer,
                domain.len,
                out.pointer,
                out.len,
            )
        }
    }
}

impl Ordered for MasterKey {
    fn order(&self) -> Order {
        self.tests()
    }
}

/// 1 and 6 can hold together.
const FIXED_TEXT_FAULTS: &[Fault<FixedText>] = &[
    (1, |call| call.key.parent.truncate(63)),
    (1, |call| call.key.parent.resize(129, 0)),
    (6, |call| call.key.room = KEY - 1),
    (6, |call| call.key.room = 0),
];

/// All pairs of 1, 7, 8, 6 can hold together, because each speaks of another slice.
const MASTER_FAULTS: &[Fault<MasterKey>] = &[
    (1, |call| call.vrk.truncate(63)),
    (1, |call| call.vrk.resize(129, 0)),
    (7, |call| call.server_id.clear()),
    (7, |call| call.server_id.resize(256, b's')),
    (7, |call| call.server_id.insert(0, 32)),
    (7, |call| call.server_id.push(127)),
    (8, |call| call.domain.clear()),
    (8, |call| call.domain.resize(254, b'd')),
    (8, |call| call.domain.insert(0, b'_')),
    (8, |call| call.domain.push(b'@')),
    (6, |call| call.room = KEY - 1),
    (6, |call| call.room = 0),
];

pub fn root_keys(group: &mut Group) {
    fixed_text(group, &root_text(), ffi::kv_visited_root_key);
}

pub fn reauth_keys(group: &mut Group) {
    fixed_text(group, &reauth_text(), ffi::kv_visited_reauth_key);
}

/// Each length of root key and of output buffer, and the refusals.
fn fixed_text(group: &mut Group, text: &Bytes, call: Exported) {
    let request = |parent: Bytes, room| FixedText { key: FixedTextKey { parent, text: text.clone(), room }, call };
    for len in (0..=200).chain(ROOT_KEY_LENGTHS) {
        for room in [0, 63, 64, 65, 200] {
            let parent = group.rng.bytes(len).into();
            group.compare(&request(parent, room));
        }
    }
    for room in 0..=130 {
        let parent = root_key(&mut group.rng);
        group.compare(&request(parent, room));
    }
    let accepted = request(root_key(&mut group.rng), KEY);
    every_pair(group, &accepted, FIXED_TEXT_FAULTS, &[]);
}

pub fn master_keys(group: &mut Group) {
    master_lengths(group);
    master_bytes(group);
    every_pair(group, &master(&mut Rng::named("pairs")), MASTER_FAULTS, &[]);
    for _ in 0..3000 {
        let accepted = master(&mut group.rng);
        group.compare(&accepted);
        mixed(group, &accepted, MASTER_FAULTS);
    }
    seam(group);
}

/// A random accepted request.
fn master(rng: &mut Rng) -> MasterKey {
    let server_len = rng.skewed(1, 255);
    let server_id = rng.bytes_in(server_len, 33, 126).into();
    let room = KEY + rng.skewed(0, 40);
    MasterKey { vrk: root_key(rng), server_id, domain: domain(rng), room }
}

/// Each length in turn, the others accepted.
fn master_lengths(group: &mut Group) {
    let mut try_with = |change: &dyn Fn(&mut MasterKey)| {
        let mut call = master(&mut group.rng);
        change(&mut call);
        group.compare(&call);
    };
    for len in ROOT_KEY_LENGTHS {
        try_with(&|call| call.vrk = vec![0x5a; len].into());
    }
    for len in 0..=300 {
        try_with(&|call| call.server_id = vec![b'*'; len].into());
        try_with(&|call| call.domain = vec![b'9'; len].into());
    }
    for room in 0..=130 {
        try_with(&|call| call.room = room);
    }
}

/// Each value of a byte at the start, in the middle and at the end of a server ID and of a domain, and alone in it.
fn master_bytes(group: &mut Group) {
    for byte in 0..=255 {
        let accepted = master(&mut group.rng);
        let alone: Bytes = vec![byte].into();
        group.compare(&MasterKey { server_id: alone.clone(), ..accepted.clone() });
        group.compare(&MasterKey { domain: alone, ..accepted.clone() });
        for at in [0, 4, 8] {
            let server_id = with_byte(b"yard1.org", at, byte);
            let domain = with_byte(b"2.example", at, byte);
            group.compare(&MasterKey { server_id: server_id.clone(), ..accepted.clone() });
            group.compare(&MasterKey { domain: domain.clone(), ..accepted.clone() });
            group.compare(&MasterKey { server_id, domain, ..accepted.clone() });
        }
    }
}

/// S holds no length: the two requests of document 02's request 6 join to the same bytes and have one key.
fn seam(group: &mut Group) {
    let vrk = root_key(&mut group.rng);
    let keys = [("yard1", "2.example"), ("yard12", ".example")].map(|(server_id, domain)| {
        let (server_id, domain) = (server_id.into(), domain.into());
        group.compare(&MasterKey { vrk: vrk.clone(), server_id, domain, room: KEY })
    });
    group.check(keys[0] == keys[1], || "the seam between server ID and domain shows".into());
}
