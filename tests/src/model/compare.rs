//! What changed between two bundles: document 02, request 10.

use super::bundle::{key_id, ReadBundle};
use super::{accepted_by, Order, Refusal};
use crate::bytes::Bytes;
use std::collections::HashMap;

/// The kinds of an entry.
pub const ONLY_FIRST: u8 = 1;
pub const CHANGED: u8 = 2;
pub const ONLY_SECOND: u8 = 3;

/// Two bundles to be compared.
#[derive(Clone, Debug)]
pub struct CompareBundles {
    pub first: Bytes,
    pub second: Bytes,
    pub room: usize,
    /// The library is lent the first file's memory twice; the second file is the same bytes.
    pub same_memory: bool,
}

/// A Key ID that differs, and how.
pub struct Entry {
    pub kind: u8,
    pub id: Vec<u8>,
}

impl CompareBundles {
    /// The first bundle's numbers without its 6, the second's likewise, then 6.
    pub fn tests(&self) -> Order {
        let [mut order, second] = self.contents_tests();
        order.extend(second);
        order.push((6, self.room < 17 * self.entries().len()));
        order
    }

    /// The numbers of each bundle.
    pub fn contents_tests(&self) -> [Order; 2] {
        [read(&self.first).contents_tests(), read(&self.second).contents_tests()]
    }

    pub fn listed(&self) -> Result<Vec<Entry>, Refusal> {
        accepted_by(&self.tests())?;
        Ok(self.entries())
    }

    /// The keys only in the first and those whose attributes differ, mixed in the first bundle's order, then those only in the second in
    /// the second's order.
    pub fn entries(&self) -> Vec<Entry> {
        let (first, second) = (read(&self.first), read(&self.second));
        let (in_first, in_second) = (attributes(&first), attributes(&second));
        let mut entries = Vec::new();
        for line in first.lines() {
            match in_second.get(line.id) {
                None => entries.push(Entry { kind: ONLY_FIRST, id: line.id.to_vec() }),
                Some(&other) if other != first.body(&line) => {
                    entries.push(Entry { kind: CHANGED, id: line.id.to_vec() })
                }
                Some(_) => {}
            }
        }
        for line in second.lines() {
            if !in_first.contains_key(line.id) {
                entries.push(Entry { kind: ONLY_SECOND, id: line.id.to_vec() });
            }
        }
        entries
    }
}

/// How many entries are of a kind.
pub fn count(entries: &[Entry], kind: u8) -> u32 {
    entries.iter().filter(|entry| entry.kind == kind).count() as u32
}

/// The bytes of the entries: each its kind and its Key ID.
pub fn written(entries: &[Entry]) -> Vec<u8> {
    entries.iter().flat_map(|entry| [&[entry.kind], &entry.id[..]].concat()).collect()
}

/// A file as its reader has it.
fn read(file: &Bytes) -> ReadBundle {
    ReadBundle { file: file.clone(), room: 0 }
}

/// The attributes of a bundle by their Key IDs.
fn attributes(bundle: &ReadBundle) -> HashMap<&[u8], &[u8]> {
    bundle.lines().iter().map(|line| bundle.body(line)).map(|body| (key_id(body), body)).collect()
}
