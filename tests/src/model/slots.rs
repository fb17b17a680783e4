//! Slots for live keys, document 02's requests 12 and 13. A table is 64 slots, each free or holding a name and a parent.

use super::{accepted_by, Order, Refusal};
use crate::ffi::{Name, Slots};

pub const SLOTS: usize = 64;

/// The parent of a root, as a call takes it.
pub const NO_PARENT: u64 = u64::MAX;

/// What a live slot holds; a root has no parent.
#[derive(Clone, Copy)]
pub struct Key {
    name: Name,
    parent: Option<u64>,
}

pub type Table = Vec<Option<Key>>;

/// The table that the library's struct holds: slot i is live where bit i of the word is set; 255 is no parent.
pub fn table_of(slots: &Slots) -> Table {
    let key = |slot: usize| Key {
        name: slots.names[slot],
        parent: (slots.parents[slot] != 255).then_some(u64::from(slots.parents[slot])),
    };
    (0..SLOTS).map(|slot| ((slots.taken >> slot) & 1 == 1).then(|| key(slot))).collect()
}

/// A table as the library's struct, with what stands in the free slots of another.
pub fn slots_of(table: &Table, before: &Slots) -> Slots {
    let mut slots = Slots { taken: 0, ..*before };
    for (number, slot) in table.iter().enumerate() {
        if let Some(key) = slot {
            slots.taken |= 1 << number;
            slots.names[number] = key.name;
            slots.parents[number] = key.parent.map_or(255, |parent| parent as u8);
        }
    }
    slots
}

/// The live slot of a number.
fn live(table: &Table, number: u64) -> Option<Key> {
    table.get(usize::try_from(number).ok()?).copied().flatten()
}

/// The slots on the way from a live slot through its parents as far as they are live, itself the first, with so many steps at the most;
/// and whether the last of them is a root.
fn way(table: &Table, from: u64, steps: usize) -> (Vec<u64>, bool) {
    let mut met = Vec::new();
    let mut next = Some(from);
    while let Some(number) = next {
        let Some(key) = live(table, number) else { return (met, false) };
        met.push(number);
        if key.parent.is_none() {
            return (met, true);
        }
        if met.len() > steps {
            return (met, false);
        }
        next = key.parent;
    }
    (met, false)
}

#[derive(Clone, Debug)]
pub struct Put {
    pub slots: Slots,
    pub name: Name,
    pub parent: u64,
}

impl Put {
    pub fn tests(&self) -> Order {
        let table = table_of(&self.slots);
        let (named, lives) = (self.parent != NO_PARENT, live(&table, self.parent).is_some());
        vec![
            (48, named && !lives),
            (49, named && lives && !way(&table, self.parent, 2).1),
            (46, table.iter().all(|slot| slot.is_some())),
        ]
    }

    /// The lowest free slot takes the name and the parent: its number, and the slots then.
    pub fn done(&self) -> Result<(u64, Slots), Refusal> {
        accepted_by(&self.tests())?;
        let mut table = table_of(&self.slots);
        let lowest = table.iter().position(|slot| slot.is_none()).expect("a slot is free");
        table[lowest] = Some(Key { name: self.name, parent: (self.parent != NO_PARENT).then_some(self.parent) });
        Ok((lowest as u64, slots_of(&table, &self.slots)))
    }
}

#[derive(Clone, Debug)]
pub struct Drop {
    pub slots: Slots,
    pub number: u64,
}

impl Drop {
    pub fn tests(&self) -> Order {
        vec![(47, live(&table_of(&self.slots), self.number).is_none())]
    }

    /// The slot and all that descend from it are free: how many went, and the slots then.
    pub fn done(&self) -> Result<(u64, Slots), Refusal> {
        accepted_by(&self.tests())?;
        let table = table_of(&self.slots);
        let goes = |number: usize| way(&table, number as u64, 3).0.contains(&self.number);
        let rest: Table = (0..SLOTS).map(|number| if goes(number) { None } else { table[number] }).collect();
        let went = (0..SLOTS).filter(|&number| goes(number)).count() as u64;
        Ok((went, slots_of(&rest, &self.slots)))
    }
}

#[derive(Clone, Debug)]
pub struct Live {
    pub slots: Slots,
}

impl Live {
    pub fn count(&self) -> u32 {
        table_of(&self.slots).iter().flatten().count() as u32
    }
}

/// Whether every live slot's parent is none or live, and a root is reached within three steps.
pub fn is_sound(slots: &Slots) -> bool {
    let table = table_of(slots);
    (0..SLOTS as u64).filter(|&number| live(&table, number).is_some()).all(|number| way(&table, number, 3).1)
}
