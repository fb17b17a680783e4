//! Bundles of Key attributes: document 02, request 9.

use super::key_attribute::frame;
use super::{accepted_by, Order, Refusal};
use crate::bytes::Bytes;

/// The count, and a line for each attribute: Key ID, offset, length.
const COUNT: usize = 2;
const LINE: usize = 20;

/// Attributes to be written as a bundle, packed end to end.
#[derive(Clone, Debug)]
pub struct WriteBundle {
    pub attributes: Bytes,
    pub room: usize,
}

impl WriteBundle {
    /// Body by body, then 39, 42, 6.
    pub fn tests(&self) -> Order {
        let bodies = self.bodies();
        let ids: Vec<&[u8]> = bodies.iter().map(|body| key_id(body)).collect();
        let mut order = first_faulty(bodies.iter().map(|body| frame(body)).collect());
        order.extend([
            (39, !(1..=64).contains(&bodies.len())),
            (42, repeated(&ids)),
            (6, self.room < COUNT + LINE * bodies.len() + self.attributes.len()),
        ]);
        order
    }

    pub fn file(&self) -> Result<Vec<u8>, Refusal> {
        accepted_by(&self.tests())?;
        Ok(file_of(&self.bodies()))
    }

    /// The attributes, each as long as its length byte says. Where that is missing, under 2 or leads past the end, all that is
    /// left is one body.
    pub fn bodies(&self) -> Vec<&[u8]> {
        let mut bodies = Vec::new();
        let mut left = &self.attributes[..];
        while !left.is_empty() {
            let length = match left.get(1) {
                Some(&length) if length >= 2 && usize::from(length) <= left.len() => usize::from(length),
                _ => left.len(),
            };
            let (body, rest) = left.split_at(length);
            bodies.push(body);
            left = rest;
        }
        bodies
    }
}

/// The file of bodies, also of more than a bundle may have.
pub fn file_of(bodies: &[&[u8]]) -> Vec<u8> {
    let mut file = (bodies.len() as u16).to_be_bytes().to_vec();
    let mut offset = COUNT + LINE * bodies.len();
    for body in bodies {
        file.extend(key_id(body));
        file.extend((offset as u16).to_be_bytes());
        file.extend((body.len() as u16).to_be_bytes());
        offset += body.len();
    }
    file.extend(bodies.concat());
    file
}

/// A bundle to be read.
#[derive(Clone, Debug)]
pub struct ReadBundle {
    pub file: Bytes,
    pub room: usize,
}

/// A line of the contents.
pub struct Line<'a> {
    pub id: &'a [u8],
    pub offset: usize,
    pub size: usize,
}

impl ReadBundle {
    /// 39, 40, 41, 42, then body by body its own number and 50, then 6.
    pub fn tests(&self) -> Order {
        let mut order = self.contents_tests();
        order.push((6, self.room < self.attributes().len()));
        order
    }

    /// The reader's numbers but 6.
    pub fn contents_tests(&self) -> Order {
        let lines = self.lines();
        let ids: Vec<&[u8]> = lines.iter().map(|line| line.id).collect();
        let ends = lines.iter().map(|line| line.offset + line.size);
        let previous: Vec<usize> = std::iter::once(self.contents_end()).chain(ends).collect();
        let follow = lines.iter().zip(&previous).all(|(line, &end)| line.offset == end);
        let mut order = vec![
            (39, self.file.len() < COUNT || !(1..=64).contains(&self.count())),
            (40, self.file.len() < self.contents_end() || !follow),
            (41, previous.last() != Some(&self.file.len())),
            (42, repeated(&ids)),
        ];
        let bodies = lines.iter().map(|line| {
            let body = self.body(line);
            let mut numbers = frame(body);
            numbers.push((50, key_id(body) != line.id));
            numbers
        });
        let mut none = frame(&[0; 0]);
        none.iter_mut().for_each(|test| test.1 = false);
        none.push((50, false));
        let bodies: Vec<Order> = bodies.collect();
        order.extend(if bodies.is_empty() { none } else { first_faulty(bodies) });
        order
    }

    pub fn packed(&self) -> Result<Vec<u8>, Refusal> {
        accepted_by(&self.tests())?;
        Ok(self.attributes().to_vec())
    }

    pub fn lines(&self) -> Vec<Line<'_>> {
        let line = |place: usize| {
            let at = COUNT + LINE * place;
            Line { id: part(&self.file, at, 16), offset: self.number(at + 16), size: self.number(at + 18) }
        };
        (0..self.count()).map(line).collect()
    }

    pub fn body(&self, line: &Line<'_>) -> &[u8] {
        part(&self.file, line.offset, line.size)
    }

    fn attributes(&self) -> &[u8] {
        self.file.get(self.contents_end()..).unwrap_or_default()
    }

    pub fn count(&self) -> usize {
        self.number(0)
    }

    pub fn contents_end(&self) -> usize {
        COUNT + LINE * self.count()
    }

    /// A number of two bytes, high byte first; a byte that is not there counts as 0.
    fn number(&self, at: usize) -> usize {
        let byte = |at: usize| usize::from(self.file.get(at).copied().unwrap_or_default());
        256 * byte(at) + byte(at + 1)
    }
}

/// The Key ID of an attribute.
pub fn key_id(attribute: &[u8]) -> &[u8] {
    part(attribute, 24, 16)
}

/// So many bytes from an index on, or as many as there are.
fn part(bytes: &[u8], at: usize, len: usize) -> &[u8] {
    let from = at.min(bytes.len());
    &bytes[from..(at + len).min(bytes.len())]
}

/// 42: one stands twice.
fn repeated(ids: &[&[u8]]) -> bool {
    ids.iter().enumerate().any(|(place, id)| ids[place + 1..].contains(id))
}

/// Body by body: the numbers of the first body that has one.
fn first_faulty(bodies: Vec<Order>) -> Order {
    let faulty = bodies.iter().position(|numbers| numbers.iter().any(|test| test.1));
    match bodies.into_iter().nth(faulty.unwrap_or_default()) {
        Some(numbers) => numbers,
        None => [24, 20, 25, 26, 27].map(|number| (number, false)).to_vec(),
    }
}
