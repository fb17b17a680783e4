//! The second program's own reading of the papers: for each call the numbers of its order and what it writes.

pub mod aka;
pub mod area;
pub mod bundle;
pub mod compare;
pub mod domain;
pub mod handover;
pub mod key_attribute;
pub mod key_name;
pub mod offers;
pub mod packet;
pub mod prf;
pub mod slots;
pub mod usage;
pub mod visited;

/// A number of document 01, "Refusal numbers", or of document 02.
pub type Refusal = u32;

/// The numbers that a call's order lists, in that order, each with whether it holds for the call's input.
pub type Order = Vec<(Refusal, bool)>;

/// A call gives the first number of its order that holds; it is accepted when none does.
pub fn accepted_by(order: &Order) -> Result<(), Refusal> {
    match order.iter().find(|test| test.1) {
        Some(test) => Err(test.0),
        None => Ok(()),
    }
}

pub fn numbers_that_hold(order: &Order) -> Vec<Refusal> {
    order.iter().filter(|test| test.1).map(|test| test.0).collect()
}

/// 1: root key (EMSK, VRK, VMSK) not 64 to 128 bytes.
fn wrong_root_key(key: &[u8]) -> bool {
    !(64..=128).contains(&key.len())
}

/// 2: label not 1 to 255 bytes.
fn wrong_label_length(label: &[u8]) -> bool {
    !(1..=255).contains(&label.len())
}

/// 32: a space, a comma, over 64 bytes without an at-sign, a second at-sign, or one that stands first or last. The labels that the box itself
/// fixes (the VRK, V-rRK and RFC 5296 labels) are exempt (document 02, request 7).
pub fn wrong_label_syntax(label: &[u8]) -> bool {
    const EXEMPT: [&str; 3] =
        ["EAP Visited domain Root Key", "EAP Re-authentication Root Key", "EAP Re-authentication Root Key@ietf.org"];
    let fields: Vec<&[u8]> = label.split(|&byte| byte == b'@').collect();
    let at_signs = match fields[..] {
        [whole] => whole.len() > 64,
        [before, after] => before.is_empty() || after.is_empty(),
        _ => true,
    };
    let breach = at_signs || label.contains(&b' ') || label.contains(&b',');
    breach && !EXEMPT.iter().any(|exempt| exempt.as_bytes() == label)
}

/// 3: a label byte outside 32 to 126. The refusal carries the position of the first one, counted from 0 (document 02, request 1).
pub fn bad_label_byte(label: &[u8]) -> Option<usize> {
    label.iter().position(|byte| !(32..=126).contains(byte))
}
