//! Slots: every number and every count of taken slots, the refusals, random slots, and long walks from the empty ones.

use crate::call::{Call, Expected, Group, Ordered};
use crate::ffi::{self, Name, Slots, SlotsOutcome};
use crate::guard::Lender;
use crate::model::slots::{is_sound, Drop, Live, Put, NO_PARENT, SLOTS};
use crate::model::{Order, Refusal};
use crate::pairs::{every_pair, Apart, Fault};
use crate::rng::Rng;

/// What a call returns; a refusal returns the slots that it was given.
fn outcome(done: Result<(u64, Slots), Refusal>, given: Slots) -> Expected<SlotsOutcome> {
    Expected::nothing_written(match done {
        Ok((value, slots)) => SlotsOutcome { refusal: 0, value, slots },
        Err(refusal) => SlotsOutcome { refusal, value: 0, slots: given },
    })
}

impl Call for Put {
    type Answer = SlotsOutcome;

    fn expected(&self) -> Expected<SlotsOutcome> {
        outcome(self.done(), self.slots)
    }

    fn run(&self, _: &mut Lender) -> SlotsOutcome {
        // SAFETY: everything is passed by value.
        unsafe { ffi::kv_put_slot(self.slots, self.name, self.parent) }
    }
}

impl Ordered for Put {
    fn order(&self) -> Order {
        self.tests()
    }
}

impl Call for Drop {
    type Answer = SlotsOutcome;

    fn expected(&self) -> Expected<SlotsOutcome> {
        outcome(self.done(), self.slots)
    }

    fn run(&self, _: &mut Lender) -> SlotsOutcome {
        // SAFETY: everything is passed by value.
        unsafe { ffi::kv_drop_slot(self.slots, self.number) }
    }
}

impl Ordered for Drop {
    fn order(&self) -> Order {
        self.tests()
    }
}

impl Call for Live {
    type Answer = u32;

    fn expected(&self) -> Expected<u32> {
        Expected::nothing_written(self.count())
    }

    fn run(&self, _: &mut Lender) -> u32 {
        // SAFETY: everything is passed by value.
        unsafe { ffi::kv_live_slots(self.slots) }
    }
}

pub const APART: &[Apart] = &[(48, 49, "a parent that is not live has no depth")];

const PUT_FAULTS: &[Fault<Put>] = &[
    (48, |call| call.parent = 64),
    (48, |call| call.parent = 255),
    (48, |call| call.parent = 256),
    (48, |call| call.parent = NO_PARENT - 1),
    (49, |call| call.parent = 3),
    (49, |call| call.slots.parents[0] = 200),
    (49, |call| call.slots.parents[0] = 2),
    (46, |call| call.slots.taken = u64::MAX),
];

const DROP_FAULTS: &[Fault<Drop>] = &[
    (47, |call| call.slots.taken = 0b0111),
    (47, |call| call.number = 64),
    (47, |call| call.number |= 256),
    (47, |call| call.number = u64::MAX),
];

fn name(rng: &mut Rng) -> Name {
    Name { bytes: rng.next().to_le_bytes() }
}

/// Words of taken slots: any, few, most, one, all but one, those up to a slot, none and all.
fn taken(rng: &mut Rng) -> u64 {
    let (any, slot) = (rng.next(), rng.below(SLOTS));
    match rng.below(8) {
        0 => any,
        1 => any & rng.next() & rng.next(),
        2 => any | rng.next() | rng.next(),
        3 => 1 << slot,
        4 => !(1 << slot),
        5 => (1 << slot) - 1,
        6 => 0,
        _ => u64::MAX,
    }
}

/// Parents: of all kinds, mostly lower slots, a few slots, or none.
fn parents(rng: &mut Rng) -> [u8; SLOTS] {
    let kind = rng.below(4);
    let mut parents = [255; SLOTS];
    for (slot, parent) in parents.iter_mut().enumerate() {
        *parent = match kind {
            0 => rng.below(256) as u8,
            1 if slot > 0 && !rng.once_in(4) => rng.below(slot) as u8,
            2 if !rng.once_in(8) => rng.below(6) as u8,
            3 if !rng.once_in(3) => rng.below(SLOTS) as u8,
            _ => 255,
        };
    }
    parents
}

/// Slots with any names and parents, also where a slot is free.
fn slots(rng: &mut Rng) -> Slots {
    Slots { taken: taken(rng), names: [(); SLOTS].map(|()| name(rng)), parents: parents(rng) }
}

/// A root, its child, its grandchild and that one's child in slots 0 to 3.
fn generations(rng: &mut Rng) -> Slots {
    let mut slots = Slots { taken: 0b1111, parents: [255; SLOTS], ..slots(rng) };
    slots.parents[1..4].copy_from_slice(&[0, 1, 2]);
    slots
}

const EMPTY: Slots = Slots { taken: 0, names: [Name { bytes: [0; 8] }; SLOTS], parents: [0; SLOTS] };

/// A number: of a slot, of none, or one whose low bits are a slot's.
fn number(rng: &mut Rng) -> u64 {
    let slot = rng.below(SLOTS) as u64;
    match rng.below(8) {
        0 => slot + 64,
        1 => slot + (1 << rng.between(7, 63)),
        2 => rng.next(),
        _ => slot,
    }
}

/// A parent: none, or any number.
fn parent(rng: &mut Rng) -> u64 {
    if rng.once_in(4) {
        NO_PARENT
    } else {
        number(rng)
    }
}

pub fn put(group: &mut Group) {
    let accepted = Put { slots: generations(&mut group.rng), name: name(&mut group.rng), parent: 2 };
    every_pair(group, &accepted, PUT_FAULTS, APART);
    for parent in (0..300).chain([NO_PARENT - 1, NO_PARENT]) {
        let (any, name) = (slots(&mut group.rng), name(&mut group.rng));
        group.compare(&Put { slots: any, name, parent });
        group.compare(&Put { slots: Slots { taken: u64::MAX >> 1, ..any }, name, parent });
    }
    for _ in 0..20_000 {
        let call = Put { slots: slots(&mut group.rng), name: name(&mut group.rng), parent: parent(&mut group.rng) };
        group.compare(&call);
    }
}

pub fn drop(group: &mut Group) {
    let accepted = Drop { slots: generations(&mut group.rng), number: 3 };
    every_pair(group, &accepted, DROP_FAULTS, &[]);
    for number in 0..300 {
        let any = slots(&mut group.rng);
        group.compare(&Drop { slots: any, number });
        group.compare(&Drop { slots: Slots { taken: u64::MAX, ..any }, number });
        let slots = generations(&mut group.rng);
        group.compare(&Drop { slots, number });
    }
    for _ in 0..20_000 {
        let call = Drop { slots: slots(&mut group.rng), number: number(&mut group.rng) };
        group.compare(&call);
    }
}

pub fn live(group: &mut Group) {
    for _ in 0..5_000 {
        let call = Live { slots: slots(&mut group.rng) };
        group.compare(&call);
    }
}

/// Calls one after another, each on the slots that the library returned, with puts more often than drops at times and at times less often.
/// The live slots are the accepted puts less what the accepted drops returned, and the slots are sound.
pub fn walks(group: &mut Group) {
    let mut slots = EMPTY;
    let (mut puts, mut went) = (0, 0);
    for step in 0..20_000 {
        let putting = group.rng.once_in(8) != (step / 300 % 2 == 0);
        let answer = if putting {
            let parent = if group.rng.once_in(3) { NO_PARENT } else { group.rng.below(SLOTS + 2) as u64 };
            let call = Put { slots, name: name(&mut group.rng), parent };
            group.compare(&call);
            call.expected().answer
        } else {
            let call = Drop { slots, number: group.rng.below(SLOTS + 2) as u64 };
            group.compare(&call);
            call.expected().answer
        };
        if answer.refusal == 0 && putting {
            puts += 1;
        } else if answer.refusal == 0 {
            went += answer.value;
        }
        slots = answer.slots;
        let call = Live { slots };
        group.compare(&call);
        let count = u64::from(call.count());
        group.check(count + went == puts, || format!("{count} live after {puts} puts, and {went} went"));
        group.check(is_sound(&slots), || format!("{slots:?} is not sound"));
    }
}
