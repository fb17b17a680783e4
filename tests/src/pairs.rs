//! Every refusal alone, every pair of refusals together, and any number of them at random.

use crate::call::{Group, Ordered};
use crate::model::{numbers_that_hold, Refusal};

/// A change to an accepted call by which the number comes to hold.
pub type Fault<C> = (Refusal, fn(&mut C));

/// Two numbers of an order that no input makes hold together, and why.
pub type Apart = (Refusal, Refusal, &'static str);

/// Tries each fault alone and each two of them, and checks that no number and no pair of the order was left out.
pub fn every_pair<C: Ordered>(group: &mut Group, accepted: &C, faults: &[Fault<C>], apart: &[Apart]) {
    assert!(numbers_that_hold(&accepted.order()).is_empty(), "the faults start from an accepted call");
    group.compare(accepted);
    let mut met: Vec<Vec<Refusal>> = Vec::new();
    for first in faults {
        let held = try_faults(group, accepted, &[first]);
        group.check(held.contains(&first.0), || format!("a fault for {} made {held:?} hold", first.0));
        met.push(held);
        for second in faults {
            met.push(try_faults(group, accepted, &[first, second]));
        }
    }
    let order: Vec<Refusal> = accepted.order().iter().map(|test| test.0).collect();
    for (place, &number) in order.iter().enumerate() {
        let alone = met.contains(&vec![number]);
        group.check(alone, || format!("no input was tried in which {number} holds alone"));
        for &later in &order[place + 1..] {
            let together = met.iter().any(|held| held.contains(&number) && held.contains(&later));
            let cannot = apart.iter().any(|pair| (pair.0, pair.1) == (number, later));
            group.check(together != cannot, || {
                format!("{number} and {later}: tried together {together}, listed as apart {cannot}")
            });
        }
    }
}

/// Makes the faults in turn, compares the call, and gives the numbers that hold in it.
fn try_faults<C: Ordered>(group: &mut Group, accepted: &C, faults: &[&Fault<C>]) -> Vec<Refusal> {
    let mut call = accepted.clone();
    for (_, make) in faults {
        make(&mut call);
    }
    group.compare(&call);
    numbers_that_hold(&call.order())
}

/// Compares one call after each fault was made or left at random, two of them in the mean.
pub fn mixed<C: Ordered>(group: &mut Group, accepted: &C, faults: &[Fault<C>]) {
    let mut call = accepted.clone();
    for (_, make) in faults {
        if group.rng.once_in(faults.len().div_ceil(2)) {
            make(&mut call);
        }
    }
    group.compare(&call);
}
