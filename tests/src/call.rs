//! A call of the library beside the answer that it has to give, and the counts of a group of such comparisons.

use crate::ffi::Outcome;
use crate::guard::{machine_bytes, Empty, Lender};
use crate::model::{bad_label_byte, Order, Refusal};
use crate::rng::Rng;
use std::fmt::Debug;

/// Differences that a group prints; the others it only counts.
const PRINTED: u64 = 5;

/// What a call has to answer, and what it has to write to the start of its output buffer.
pub struct Expected<Answer> {
    pub answer: Answer,
    pub written: Vec<u8>,
}

impl<Answer> Expected<Answer> {
    /// An answer that leaves every lent byte as it was.
    pub fn nothing_written(answer: Answer) -> Self {
        Expected { answer, written: Vec::new() }
    }
}

/// Everything that one call of the library is given.
pub trait Call: Debug {
    type Answer: PartialEq + Debug;

    /// The answer by the papers.
    fn expected(&self) -> Expected<Self::Answer>;

    /// The library's answer on lent buffers.
    fn run(&self, lender: &mut Lender) -> Self::Answer;
}

/// A call whose order can be read off its input, number by number.
pub trait Ordered: Call + Clone {
    /// The numbers of the call's order, each with whether it holds here.
    fn order(&self) -> Order;
}

impl Outcome {
    pub fn accepted(value: usize) -> Self {
        Outcome { refusal: 0, value: value as u64 }
    }

    /// A refusal that carries no place returns its number and nothing else.
    pub fn refused(number: Refusal) -> Self {
        Outcome { refusal: number, value: 0 }
    }
}

impl Expected<Outcome> {
    /// The same of a call that tests a label: 3 carries the position of the label's first bad byte.
    pub fn with_label(mut self, label: &[u8]) -> Self {
        if self.answer.refusal == 3 {
            self.answer.value = bad_label_byte(label).expect("3 holds") as u64;
        }
        self
    }
}

/// What a call that writes bytes and returns their count has to do.
pub fn bytes_or_refusal(result: Result<Vec<u8>, Refusal>) -> Expected<Outcome> {
    match result {
        Ok(written) => Expected { answer: Outcome::accepted(written.len()), written },
        Err(number) => Expected::nothing_written(Outcome::refused(number)),
    }
}

/// What a call that writes two-byte values and returns their count has to do.
pub fn values_or_refusal(result: Result<Vec<u16>, Refusal>) -> Expected<Outcome> {
    match result {
        Ok(values) => Expected { answer: Outcome::accepted(values.len()), written: machine_bytes(&values) },
        Err(number) => Expected::nothing_written(Outcome::refused(number)),
    }
}

/// A group of comparisons, with its own inputs and counts.
pub struct Group {
    name: &'static str,
    pub rng: Rng,
    lender: Lender,
    passed: u64,
    failed: u64,
}

impl Group {
    pub fn new(name: &'static str) -> Self {
        let mut rng = Rng::named(name);
        let lender = Lender::new(Rng::named(&format!("{name} {}", rng.next())));
        Group { name, rng, lender, passed: 0, failed: 0 }
    }

    /// Counts a check; a failed one is told.
    pub fn check(&mut self, holds: bool, tell: impl FnOnce() -> String) {
        if holds {
            self.passed += 1;
            return;
        }
        self.failed += 1;
        if self.failed <= PRINTED {
            println!("{}: DIFFERS: {}", self.name, tell());
        }
    }

    /// Compares the library with the papers on one input, and gives what the library left in the output buffer.
    /// An input with an empty slice is tried twice, with a null pointer and with another.
    pub fn compare<C: Call>(&mut self, call: &C) -> Vec<u8> {
        let expected = call.expected();
        let mut output = self.compare_once(call, &expected, Empty::Null);
        if self.lender.lent_an_empty_slice() {
            output = self.compare_once(call, &expected, Empty::Placed);
        }
        output
    }

    fn compare_once<C: Call>(&mut self, call: &C, expected: &Expected<C::Answer>, empty: Empty) -> Vec<u8> {
        self.lender.start(empty);
        let answer = call.run(&mut self.lender);
        let output = self.lender.output();
        let damage = self.lender.damage(&expected.written);
        let same = answer == expected.answer && damage.is_none();
        self.check(same, || {
            let damage = damage.unwrap_or("every lent byte is right".into());
            format!("{call:?} (empty slices {empty:?}): answered {answer:?}, expected {:?}; {damage}", expected.answer)
        });
        output
    }

    /// Prints the group's line; gives what passed and what failed.
    pub fn finish(self) -> (u64, u64) {
        println!("{}: {} compared, {} differ", self.name, self.passed + self.failed, self.failed);
        (self.passed, self.failed)
    }
}
