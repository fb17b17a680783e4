//! Offers: all short lists over a few values, lists around the bounds, random longer ones, the refusals; logins whose list or
//! reply is altered on the way.

use crate::call::{values_or_refusal, Call, Expected, Group, Ordered};
use crate::ffi::{self, FirstRound, Outcome};
use crate::guard::{machine_bytes, Lender};
use crate::model::offers::{renewed, Answer, Choose, Login, Recheck, Reply};
use crate::model::Order;
use crate::pairs::{every_pair, mixed, Apart, Fault};
use crate::rng::Rng;

/// The values of the exhaustive lists; two of them share a byte with others, in case only a part is compared.
const VALUES: [u16; 4] = [1, 2, 0x0101, 0x0200];

impl Call for Choose {
    type Answer = FirstRound;

    fn expected(&self) -> Expected<FirstRound> {
        let none = FirstRound::default();
        Expected::nothing_written(match self.answer() {
            Ok(Answer::CarryOn { value }) => FirstRound { value: value.into(), ..none },
            Ok(Answer::Ask { value, position }) => {
                FirstRound { ask: 1, value: value.into(), position: position as u32, ..none }
            }
            Err(refusal) => FirstRound { refusal, ..none },
        })
    }

    fn run(&self, lender: &mut Lender) -> FirstRound {
        let offers = lender.values("offers", &self.offers);
        let supported = lender.values("supported", &self.supported);
        // SAFETY: all of it is lent.
        unsafe { ffi::kv_choose_offer(offers.pointer, offers.len, supported.pointer, supported.len) }
    }
}

impl Ordered for Choose {
    fn order(&self) -> Order {
        self.tests()
    }
}

impl Call for Reply {
    type Answer = Outcome;

    fn expected(&self) -> Expected<Outcome> {
        values_or_refusal(self.list())
    }

    fn run(&self, lender: &mut Lender) -> Outcome {
        let offers = lender.values("offers", &self.offers);
        let out = lender.room_for_values(self.room);
        // SAFETY: all of it is lent.
        unsafe { ffi::kv_answer_offer(offers.pointer, offers.len, self.reply, out.pointer, out.len) }
    }
}

impl Ordered for Reply {
    fn order(&self) -> Order {
        self.tests()
    }
}

impl Call for Recheck {
    type Answer = Outcome;

    fn expected(&self) -> Expected<Outcome> {
        Expected::nothing_written(match self.choice() {
            Ok(choice) => Outcome::accepted(choice.into()),
            Err(number) => Outcome::refused(number),
        })
    }

    fn run(&self, lender: &mut Lender) -> Outcome {
        let original = lender.values("original", &self.original);
        let renewed = lender.values("renewed", &self.renewed);
        // SAFETY: all of it is lent.
        unsafe { ffi::kv_check_renewed(original.pointer, original.len, self.choice, renewed.pointer, renewed.len) }
    }
}

impl Ordered for Recheck {
    fn order(&self) -> Order {
        self.tests()
    }
}

/// A server's buffer that holds every renewed list.
const ROOM: usize = 17;

/// The three calls of a login that asks, each on what the one before answered.
impl Call for Login {
    /// what the peer holds at the end
    type Answer = Option<u64>;

    fn expected(&self) -> Expected<Option<u64>> {
        let server = Reply { offers: self.offers.clone(), reply: self.reply, room: ROOM };
        let written = machine_bytes(&server.list().unwrap_or_default());
        Expected { answer: self.held().map(u64::from), written }
    }

    fn run(&self, lender: &mut Lender) -> Option<u64> {
        let offers = lender.values("offers", &self.offers);
        let seen = lender.values("seen", &self.seen);
        let supported = lender.values("supported", &self.supported);
        let out = lender.room_for_values(ROOM);
        // SAFETY: all of it is lent.
        let first = unsafe { ffi::kv_choose_offer(seen.pointer, seen.len, supported.pointer, supported.len) };
        let choice = u16::try_from(first.value).ok().filter(|_| first.refusal == 0 && first.ask == 1)?;
        // SAFETY: all of it is lent.
        let sent = unsafe { ffi::kv_answer_offer(offers.pointer, offers.len, self.reply, out.pointer, out.len) };
        let count = usize::try_from(sent.value).ok().filter(|&count| sent.refusal == 0 && count <= ROOM)?;
        // SAFETY: all of it is lent, and the count is within the buffer.
        let end = unsafe { ffi::kv_check_renewed(seen.pointer, seen.len, choice, out.pointer, count) };
        (end.refusal == 0).then_some(end.value)
    }
}

/// All pairs of 10, 11, 12 can hold together.
const CHOOSE_FAULTS: &[Fault<Choose>] = &[
    (10, |call| call.offers.clear()),
    (10, |call| lengthen(&mut call.offers)),
    (11, |call| repeat_last(&mut call.offers)),
    (11, |call| repeat_first(&mut call.offers)),
    (12, |call| call.supported.clear()),
    (12, |call| call.supported = vec![9, 9, 9]),
];

const REPLY_FAULTS: &[Fault<Reply>] = &[
    (10, |call| call.offers.clear()),
    (10, |call| lengthen(&mut call.offers)),
    (11, |call| repeat_last(&mut call.offers)),
    (11, |call| repeat_first(&mut call.offers)),
    (13, |call| call.reply = call.offers.first().copied().unwrap_or(0)),
    (14, |call| call.reply = 9),
    (6, |call| call.room = call.offers.len()),
    (6, |call| call.room = 0),
];

const RECHECK_FAULTS: &[Fault<Recheck>] = &[
    (10, |call| call.original.clear()),
    (10, |call| replace_original(call, lengthen)),
    (11, |call| replace_original(call, repeat_last)),
    (11, |call| replace_original(call, repeat_first)),
    (13, |call| replace_choice(call, call.original.first().copied().unwrap_or(0))),
    (14, |call| replace_choice(call, 9)),
    (15, |call| call.renewed.clear()),
    (15, |call| call.renewed.push(1)),
    (15, |call| call.renewed.reverse()),
];

/// The pair of answers and rechecks that no input has; all others of their orders can hold together.
pub const APART: &[Apart] = &[(13, 14, "a reply that equals the first offer is among the offers")];

/// To 17 values, the earlier ones first.
fn lengthen(offers: &mut Vec<u16>) {
    let next = 100 + offers.len() as u16;
    offers.extend(next..next + 17);
    offers.truncate(17);
}

fn repeat_last(offers: &mut Vec<u16>) {
    offers.extend(offers.last().copied());
}

fn repeat_first(offers: &mut Vec<u16>) {
    offers.extend(offers.first().copied());
}

/// Changes the original list and renews it, so that 15 does not come to hold as well.
fn replace_original(call: &mut Recheck, change: fn(&mut Vec<u16>)) {
    change(&mut call.original);
    call.renewed = renewed(&call.original, call.choice);
}

/// Changes the choice and renews the list, so that 15 does not come to hold as well.
fn replace_choice(call: &mut Recheck, choice: u16) {
    call.choice = choice;
    call.renewed = renewed(&call.original, choice);
}

pub fn choose(group: &mut Group) {
    // P6 to P9
    for (offers, supported) in [([2, 1], vec![1]), ([2, 1], vec![1, 2]), ([2, 2], vec![2]), ([2, 1], vec![3])] {
        group.compare(&Choose { offers: offers.to_vec(), supported });
    }
    let short = lists(4);
    for offers in &short {
        for supported in &short {
            group.compare(&Choose { offers: offers.clone(), supported: supported.clone() });
        }
    }
    for count in 0..=40 {
        for supported_len in [0, 1, 2, 16, 17, 1000] {
            let offers = distinct(&mut group.rng, count);
            let supported = some_of(&mut group.rng, &offers, supported_len);
            group.compare(&Choose { offers, supported });
        }
    }
    let accepted = Choose { offers: vec![2, 1, 3], supported: vec![7, 1, 3, 1] };
    every_pair(group, &accepted, CHOOSE_FAULTS, &[]);
    for _ in 0..20_000 {
        let offers = random_offers(&mut group.rng);
        let supported_len = group.rng.skewed(0, 300);
        let supported = some_of(&mut group.rng, &offers, supported_len);
        let call = Choose { offers, supported };
        group.compare(&call);
        mixed(group, &call, CHOOSE_FAULTS);
    }
}

pub fn answer(group: &mut Group) {
    // P10 to P12
    for reply in [1, 2, 7] {
        group.compare(&Reply { offers: vec![2, 1], reply, room: 3 });
    }
    for offers in lists(4) {
        for reply in replies() {
            for room in [0, 1, offers.len(), offers.len() + 1, offers.len() + 2, 40] {
                group.compare(&Reply { offers: offers.clone(), reply, room });
            }
        }
    }
    for count in 0..=40 {
        for room in [count, count + 1, count + 2] {
            let offers = distinct(&mut group.rng, count);
            for reply in offers.iter().copied().chain([0, 9]) {
                group.compare(&Reply { offers: offers.clone(), reply, room });
            }
        }
    }
    every_pair(group, &Reply { offers: vec![2, 1, 3], reply: 1, room: 40 }, REPLY_FAULTS, APART);
    for _ in 0..20_000 {
        let offers = random_offers(&mut group.rng);
        let reply = random_reply(&mut group.rng, &offers);
        let room = offers.len() + group.rng.skewed(0, 20);
        let call = Reply { offers, reply, room };
        group.compare(&call);
        mixed(group, &call, REPLY_FAULTS);
    }
}

pub fn recheck(group: &mut Group) {
    // P13
    group.compare(&Recheck { original: vec![2, 1], choice: 1, renewed: vec![1, 1, 2] });
    // one value longer than the original, so that each short original has its accepted list
    let renewals = lists(5);
    for original in lists(4) {
        for choice in replies() {
            for renewed in &renewals {
                let (original, renewed) = (original.clone(), renewed.clone());
                group.compare(&Recheck { original, choice, renewed });
            }
        }
    }
    for count in 0..=40 {
        let original = distinct(&mut group.rng, count);
        for choice in original.iter().copied().chain([0, 9]) {
            damaged_renewals(group, &original, choice);
        }
    }
    let accepted = Recheck { original: vec![2, 1, 3], choice: 1, renewed: vec![1, 2, 1, 3] };
    every_pair(group, &accepted, RECHECK_FAULTS, APART);
    for _ in 0..20_000 {
        let original = random_offers(&mut group.rng);
        let choice = random_reply(&mut group.rng, &original);
        let call = Recheck { renewed: renewed(&original, choice), original, choice };
        group.compare(&call);
        mixed(group, &call, RECHECK_FAULTS);
    }
}

/// Request 14: lists thinned, reordered and lengthened, and replies swapped, are never accepted; unaltered logins are.
pub fn logins(group: &mut Group) {
    short_logins(group);
    unaltered_logins(group);
    for _ in 0..50_000 {
        random_login(group);
    }
}

/// Each pair of short lists without repeats, one for the server and one that the peer sees, with each set of supported values
/// and each reply.
fn short_logins(group: &mut Group) {
    let short: Vec<Vec<u16>> = lists(4).into_iter().filter(|list| has_no_repeat(list)).collect();
    for (offers, seen) in short.iter().flat_map(|offers| short.iter().map(move |seen| (offers, seen))) {
        for set in 1..1 << VALUES.len() {
            let supported = (0..VALUES.len()).filter(|at| set >> at & 1 == 1).map(|at| VALUES[at]).collect();
            let login = Login { offers: offers.clone(), seen: seen.clone(), supported, reply: 0 };
            if login.asked().is_some() {
                for reply in VALUES {
                    group.compare(&Login { reply, ..login.clone() });
                }
            }
        }
    }
}

/// Each count of offers with which a peer can ask, and each position that it can ask for.
fn unaltered_logins(group: &mut Group) {
    for count in 2..=16 {
        for position in 1..count {
            let offers = distinct(&mut group.rng, count);
            let (seen, reply) = (offers.clone(), offers[position]);
            let supported = [&[9], &offers[position..]].concat();
            let login = Login { offers, seen, supported, reply };
            group.check(login.held() == Some(reply), || format!("{login:?} is not accepted by the model"));
            group.compare(&login);
        }
    }
}

/// A list of up to 16 offers, none or more of them altered on the way to the peer, and the peer's reply or another offer.
fn random_login(group: &mut Group) {
    let rng = &mut group.rng;
    let count = rng.between(2, 16);
    let offers = distinct(rng, count);
    let mut seen = offers.clone();
    for _ in 0..rng.below(4) {
        alter(rng, &mut seen);
    }
    // not the first offer, so that the peer mostly asks
    let supported = offers[1..].iter().copied().filter(|_| rng.once_in(3)).collect();
    let login = Login { offers, seen, supported, reply: 0 };
    let Some(asked) = login.asked() else { return };
    let reply = if rng.once_in(2) { asked } else { rng.pick(&login.offers) };
    group.compare(&Login { reply, ..login });
}

/// Takes a value out, puts two in each other's place, puts a new one in, or changes one.
fn alter(rng: &mut Rng, list: &mut Vec<u16>) {
    if list.is_empty() {
        return;
    }
    let (at, other) = (rng.below(list.len()), rng.below(list.len()));
    let value = rng.between(10, 65_535) as u16;
    match rng.below(4) {
        0 => drop(list.remove(at)),
        1 => list.swap(at, other),
        2 => list.insert(at, value),
        _ => list[at] = value,
    }
}

fn has_no_repeat(list: &[u16]) -> bool {
    (1..list.len()).all(|at| !list[..at].contains(&list[at]))
}

/// The right renewed list, and it with a value changed at each place, cut short and made longer.
fn damaged_renewals(group: &mut Group, original: &[u16], choice: u16) {
    let right = renewed(original, choice);
    let mut lists = vec![right.clone(), [&right[..], &[choice]].concat(), original.to_vec()];
    for at in 0..right.len() {
        lists.push(right[..at].to_vec());
        let mut changed = right.clone();
        changed[at] ^= 1 << group.rng.below(16);
        lists.push(changed);
    }
    for renewed in lists {
        group.compare(&Recheck { original: original.to_vec(), choice, renewed });
    }
}

/// All lists over the few values, up to this long.
fn lists(longest: usize) -> Vec<Vec<u16>> {
    let mut all = vec![vec![]];
    let mut last = all.clone();
    for _ in 0..longest {
        last = last.iter().flat_map(|list| VALUES.map(|value| [&list[..], &[value]].concat())).collect();
        all.extend(last.clone());
    }
    all
}

/// The few values, and one that no list holds.
fn replies() -> Vec<u16> {
    [&VALUES[..], &[9]].concat()
}

/// So many values, none twice, and neither 0 nor 9 among them.
fn distinct(rng: &mut Rng, count: usize) -> Vec<u16> {
    let mut values = Vec::new();
    while values.len() < count {
        let value = rng.between(10, 65_535) as u16;
        if !values.contains(&value) {
            values.push(value);
        }
    }
    values
}

/// Mostly as an accepted list has to be, now and then with a repeated value somewhere.
fn random_offers(rng: &mut Rng) -> Vec<u16> {
    let count = rng.between(1, 17);
    let mut offers = distinct(rng, count);
    if rng.once_in(4) {
        let (from, to) = (rng.below(count), rng.below(count));
        offers[to] = offers[from];
    }
    offers
}

/// Mostly an offer, now and then another value.
fn random_reply(rng: &mut Rng, offers: &[u16]) -> u16 {
    if rng.once_in(8) {
        return rng.next() as u16;
    }
    rng.pick(offers)
}

/// A supported list of this length: values of no offer, with few offers among them at any place.
fn some_of(rng: &mut Rng, offers: &[u16], len: usize) -> Vec<u16> {
    let mut supported: Vec<u16> = (0..len).map(|_| rng.next() as u16).collect();
    for _ in 0..rng.below(3) {
        if !supported.is_empty() && !offers.is_empty() {
            let at = rng.below(len);
            supported[at] = rng.pick(offers);
        }
    }
    supported
}
