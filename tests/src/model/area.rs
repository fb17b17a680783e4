//! The attribute area: first cut into attributes, then read attribute by attribute.

use super::Refusal;
use crate::bytes::Bytes;

/// Types of RFC 5448.
pub const AT_KDF_INPUT: u8 = 23;
pub const AT_KDF: u8 = 24;

/// An area holds at most 17 offers, and the output buffer needs room for as many.
pub const MOST_OFFERS: usize = 17;

/// How an area is read: the strict way refuses a name that differs from the peer's own, the lenient one reports it.
#[derive(Clone, Copy, Debug, PartialEq)]
pub enum Way {
    Strict,
    Lenient,
}

/// An area to read, the peer's own name, the way and room for so many values.
#[derive(Clone, Debug)]
pub struct ReadArea {
    pub area: Bytes,
    pub own_name: Bytes,
    pub way: Way,
    pub room: usize,
}

/// What an accepted area holds.
#[derive(Clone, Debug, PartialEq)]
pub struct Contents {
    pub offers: Vec<u16>,
    pub name_at: usize,
    pub name_len: usize,
    pub same_name: bool,
}

/// An attribute that lies whole in the area: its place, its type and all its bytes.
struct Attribute<'a> {
    at: usize,
    kind: u8,
    bytes: &'a [u8],
}

/// What was read of an area so far.
#[derive(Default)]
struct Reading<'a> {
    offers: Vec<u16>,
    name: Option<(usize, &'a [u8])>,
}

impl ReadArea {
    /// 6 first; then the attributes left to right, 16 where the next one is broken; at the end 19, then 10, then by the strict way 30.
    pub fn contents(&self) -> Result<Contents, Refusal> {
        if self.room < MOST_OFFERS {
            return Err(6);
        }
        let (attributes, broken) = cut(&self.area);
        let mut reading = Reading::default();
        for attribute in &attributes {
            read_attribute(&mut reading, attribute)?;
        }
        if broken.is_some() {
            return Err(16);
        }
        let (name_at, name) = reading.name.ok_or(19u32)?;
        if reading.offers.is_empty() {
            return Err(10);
        }
        let same_name = names_agree(name, &self.own_name);
        if self.way == Way::Strict && !same_name {
            return Err(30);
        }
        Ok(Contents { offers: reading.offers, name_at, name_len: name.len(), same_name })
    }

    /// The place that a refusal carries: 16 the offset of the broken attribute, every other none (document 02, request 1).
    pub fn place(&self, refusal: Refusal) -> usize {
        match refusal {
            16 => cut(&self.area).1.expect("16 holds"),
            _ => 0,
        }
    }
}

/// RFC 5448, section 3.1: the names are split at colons, the extra fields of the longer are dropped, and the rest must be equal. An empty
/// name is one empty field (document 02, request 4).
pub fn names_agree(a: &[u8], b: &[u8]) -> bool {
    let (a, b): (Vec<_>, Vec<_>) = (a.split(|&byte| byte == b':').collect(), b.split(|&byte| byte == b':').collect());
    let fewer = a.len().min(b.len());
    a[..fewer] == b[..fewer]
}

/// The attributes up to the area's end or to the first broken one, and where there is a broken one its offset: without a
/// length byte, of length 0, or past the area's end.
fn cut(area: &[u8]) -> (Vec<Attribute<'_>>, Option<usize>) {
    let mut attributes = Vec::new();
    let mut rest = area;
    while let Some(&kind) = rest.first() {
        let length = rest.get(1).map_or(0, |&words| 4 * usize::from(words));
        if length == 0 || length > rest.len() {
            return (attributes, Some(area.len() - rest.len()));
        }
        let (bytes, after) = rest.split_at(length);
        attributes.push(Attribute { at: area.len() - rest.len(), kind, bytes });
        rest = after;
    }
    (attributes, None)
}

/// 17, or 18 and then 29, then a repeated name (19) or the eighteenth AT_KDF (10). Other types are stepped over.
fn read_attribute<'a>(reading: &mut Reading<'a>, attribute: &Attribute<'a>) -> Result<(), Refusal> {
    match attribute.kind {
        AT_KDF => read_offer(reading, attribute.bytes),
        AT_KDF_INPUT => read_name(reading, attribute),
        _ => Ok(()),
    }
}

fn read_offer(reading: &mut Reading<'_>, bytes: &[u8]) -> Result<(), Refusal> {
    if bytes.len() != 4 {
        return Err(17);
    }
    if reading.offers.len() == MOST_OFFERS {
        return Err(10);
    }
    reading.offers.push(u16::from_be_bytes([bytes[2], bytes[3]]));
    Ok(())
}

fn read_name<'a>(reading: &mut Reading<'a>, attribute: &Attribute<'a>) -> Result<(), Refusal> {
    let bytes = attribute.bytes;
    let name_len = usize::from(u16::from_be_bytes([bytes[2], bytes[3]]));
    // in four-byte words: 1 plus the name length divided by 4, rounded up
    if bytes.len() / 4 != 1 + name_len.div_ceil(4) {
        return Err(18);
    }
    let (name, padding) = bytes[4..].split_at(name_len);
    if padding.iter().any(|&byte| byte != 0) {
        return Err(29);
    }
    if reading.name.is_some() {
        return Err(19);
    }
    reading.name = Some((attribute.at + 4, name));
    Ok(())
}
