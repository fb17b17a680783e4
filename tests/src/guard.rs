//! Buffers lent to the library, with guard bytes around each, and the comparison of every byte after a call.
//!
//! All buffers of a call lie in one memory. Beside it stands its image, what the memory has to be after the call: the
//! lent bytes and the guards as they were, and the written bytes at the start of the output buffer. Inputs are
//! compared like everything else, because the library may not alter them either.

use crate::rng::Rng;
use std::ops::Range;
use std::ptr;

/// More than the buffers of any call take.
const MEMORY: usize = 4 << 20;

/// Guard bytes on each side, at the least.
const GUARD: usize = 16;

/// How a slice of length 0 is lent.
#[derive(Clone, Copy, Debug, PartialEq)]
pub enum Empty {
    Null,
    Placed,
}

/// What goes to the library for one slice.
pub struct Lent<T> {
    pub pointer: *mut T,
    pub len: usize,
}

pub struct Lender {
    memory: Vec<u64>,
    image: Vec<u8>,
    lent: Vec<(&'static str, Range<usize>)>,
    out: Range<usize>,
    empty: Empty,
    rng: Rng,
}

impl Lender {
    pub fn new(rng: Rng) -> Self {
        Lender { memory: vec![0; MEMORY / 8], image: Vec::new(), lent: Vec::new(), out: 0..0, empty: Empty::Null, rng }
    }

    /// Takes back what was lent before; the next call starts with an empty memory.
    pub fn start(&mut self, empty: Empty) {
        self.image.clear();
        self.lent.clear();
        self.out = 0..0;
        self.empty = empty;
    }

    /// Lends bytes that the call may only read.
    pub fn bytes(&mut self, name: &'static str, bytes: &[u8]) -> Lent<u8> {
        let place = self.place(name, bytes, 1);
        self.hand_out(place, bytes.len())
    }

    /// Lends bytes that the call may read and write: its output buffer has this content.
    pub fn changing(&mut self, name: &'static str, bytes: &[u8]) -> Lent<u8> {
        self.out = self.place(name, bytes, 1);
        self.hand_out(self.out.clone(), bytes.len())
    }

    /// Lends two-byte values, numbers of the machine, that the call may only read.
    pub fn values(&mut self, name: &'static str, values: &[u16]) -> Lent<u16> {
        let place = self.place(name, &machine_bytes(values), 2);
        self.hand_out(place, values.len())
    }

    /// Lends an output buffer of so many bytes, with any content.
    pub fn room(&mut self, len: usize) -> Lent<u8> {
        self.out = self.place_room(len, 1);
        self.hand_out(self.out.clone(), len)
    }

    /// Lends an output buffer of so many two-byte values, with any content.
    pub fn room_for_values(&mut self, len: usize) -> Lent<u16> {
        self.out = self.place_room(2 * len, 2);
        self.hand_out(self.out.clone(), len)
    }

    /// Whether a slice of length 0 is among those lent, so that the other way of lending it is worth a call.
    pub fn lent_an_empty_slice(&self) -> bool {
        self.lent.iter().any(|(_, place)| place.is_empty())
    }

    /// After the call: the first byte that is not as it has to be when these bytes were to be written.
    pub fn damage(&mut self, written: &[u8]) -> Option<String> {
        assert!(written.len() <= self.out.len(), "no call is to write more than its output buffer");
        self.image[self.out.start..][..written.len()].copy_from_slice(written);
        let memory = self.memory();
        let at = (0..memory.len()).find(|&at| memory[at] != self.image[at])?;
        Some(format!("{} is {:02x}, not {:02x}", self.name_of(at), memory[at], self.image[at]))
    }

    /// After the call: what the output buffer holds.
    pub fn output(&self) -> Vec<u8> {
        self.memory()[self.out.clone()].to_vec()
    }

    /// The used part of the memory.
    fn memory(&self) -> &[u8] {
        // SAFETY: the image is never longer than the memory, and every u64 is eight bytes.
        unsafe { std::slice::from_raw_parts(self.memory.as_ptr().cast(), self.image.len()) }
    }

    fn place_room(&mut self, bytes: usize, align: usize) -> Range<usize> {
        let content = self.rng.bytes(bytes);
        self.place("out", &content, align)
    }

    /// Puts content into memory and image, with guards before and after it, at a multiple of `align`.
    fn place(&mut self, name: &'static str, content: &[u8], align: usize) -> Range<usize> {
        let from = self.image.len();
        // addresses differ from call to call, because the library may count on none
        let guard = GUARD + self.rng.below(8);
        let start = (from + guard).next_multiple_of(align);
        let end = start + content.len();
        self.image.extend(self.rng.bytes(start - from));
        self.image.extend(content);
        self.image.extend(self.rng.bytes(GUARD));
        assert!(self.image.len() <= MEMORY, "the buffers of a call fit in the memory");
        let memory: *mut u8 = self.memory.as_mut_ptr().cast();
        // SAFETY: the image is no longer than the memory, and they are apart.
        unsafe { ptr::copy_nonoverlapping(self.image[from..].as_ptr(), memory.add(from), self.image.len() - from) };
        self.lent.push((name, start..end));
        start..end
    }

    fn hand_out<T>(&mut self, place: Range<usize>, len: usize) -> Lent<T> {
        if len == 0 && self.empty == Empty::Null {
            return Lent { pointer: ptr::null_mut(), len };
        }
        let memory: *mut u8 = self.memory.as_mut_ptr().cast();
        // SAFETY: the place lies in the memory.
        Lent { pointer: unsafe { memory.add(place.start) }.cast(), len }
    }

    /// In words, where a byte of the memory lies.
    fn name_of(&self, at: usize) -> String {
        let within = self.lent.iter().find(|(_, place)| place.contains(&at));
        match within {
            Some((name, place)) => format!("byte {} of {name}", at - place.start),
            None => format!("a guard byte at {at} ({:?})", self.lent),
        }
    }
}

/// Two-byte values as they lie in the memory of this machine.
pub fn machine_bytes(values: &[u16]) -> Vec<u8> {
    values.iter().flat_map(|value| value.to_ne_bytes()).collect()
}
