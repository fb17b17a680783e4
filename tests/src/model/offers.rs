//! Offers, RFC 5448 section 3.2 as document 01 reads it; a login over them, as request 14 of document 02 has it.

use super::{accepted_by, Order, Refusal};

/// The first round's answer: Carry On or Ask, by document 01's names.
#[derive(Clone, Copy, Debug, PartialEq)]
pub enum Answer {
    CarryOn { value: u16 },
    Ask { value: u16, position: usize },
}

/// The peer's first round.
#[derive(Clone, Debug)]
pub struct Choose {
    pub offers: Vec<u16>,
    pub supported: Vec<u16>,
}

impl Choose {
    pub fn tests(&self) -> Order {
        vec![(10, wrong_count(&self.offers)), (11, has_repeat(&self.offers)), (12, self.first_supported().is_none())]
    }

    pub fn answer(&self) -> Result<Answer, Refusal> {
        accepted_by(&self.tests())?;
        let position = self.first_supported().ok_or(12u32)?;
        let value = self.offers[position];
        Ok(if position == 0 { Answer::CarryOn { value } } else { Answer::Ask { value, position } })
    }

    /// The place of the first offer, in the server's order, that stands in the supported list.
    fn first_supported(&self) -> Option<usize> {
        self.offers.iter().position(|offer| self.supported.contains(offer))
    }
}

/// The server's answer to a reply.
#[derive(Clone, Debug)]
pub struct Reply {
    pub offers: Vec<u16>,
    pub reply: u16,
    pub room: usize,
}

impl Reply {
    pub fn tests(&self) -> Order {
        let mut order = tests_of_choice(&self.offers, self.reply);
        order.push((6, self.room < self.offers.len() + 1));
        order
    }

    /// The reply, then the entire list.
    pub fn list(&self) -> Result<Vec<u16>, Refusal> {
        accepted_by(&self.tests())?;
        Ok(renewed(&self.offers, self.reply))
    }
}

/// The peer's check of the renewed list.
#[derive(Clone, Debug)]
pub struct Recheck {
    pub original: Vec<u16>,
    pub choice: u16,
    pub renewed: Vec<u16>,
}

impl Recheck {
    pub fn tests(&self) -> Order {
        let mut order = tests_of_choice(&self.original, self.choice);
        order.push((15, self.renewed != renewed(&self.original, self.choice)));
        order
    }

    pub fn choice(&self) -> Result<u16, Refusal> {
        accepted_by(&self.tests())?;
        Ok(self.choice)
    }
}

/// Document 02, request 14: a login in which the peer sees a list that may not be the server's own, and the server gets a reply
/// that may not be the peer's own. What the server writes reaches the peer whole.
#[derive(Clone, Debug)]
pub struct Login {
    pub offers: Vec<u16>,
    pub seen: Vec<u16>,
    pub supported: Vec<u16>,
    pub reply: u16,
}

impl Login {
    /// What the peer asks for; nothing where its first round ends in Carry On or a refusal, which request 14 does not cover.
    pub fn asked(&self) -> Option<u16> {
        let first = Choose { offers: self.seen.clone(), supported: self.supported.clone() };
        match first.answer() {
            Ok(Answer::Ask { value, .. }) => Some(value),
            _ => None,
        }
    }

    /// What both hold after an Ask: the first offer of the server's list that the peer supports, and that only if the peer saw
    /// the server's own list and its own reply arrived.
    pub fn held(&self) -> Option<u16> {
        let unaltered = self.seen == self.offers && self.asked() == Some(self.reply);
        self.offers.iter().copied().find(|offer| unaltered && self.supported.contains(offer))
    }
}

/// The choice followed by the original list.
pub fn renewed(original: &[u16], choice: u16) -> Vec<u16> {
    [&[choice], original].concat()
}

/// 10, 11, 13, 14: what the server checks of a reply, and the peer of its own choice on renewal.
fn tests_of_choice(offers: &[u16], choice: u16) -> Order {
    vec![
        (10, wrong_count(offers)),
        (11, has_repeat(offers)),
        (13, offers.first() == Some(&choice)),
        (14, !offers.contains(&choice)),
    ]
}

/// 10: offers not 1 to 16.
fn wrong_count(offers: &[u16]) -> bool {
    !(1..=16).contains(&offers.len())
}

/// 11: an offer value occurs twice.
fn has_repeat(offers: &[u16]) -> bool {
    (1..offers.len()).any(|at| offers[..at].contains(&offers[at]))
}
