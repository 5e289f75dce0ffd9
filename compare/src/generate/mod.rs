//! Arrivals, messages, pairs, quotes, crossing quotes and sessions made up at random, so biased that
//! the rules meet: legs that form the known shapes or nearly do, prices at the limits that checks
//! draw, settings, markets and logins at their own limits, and damage of every kind.

mod crossings;
mod damage;
mod legs;
pub mod messages;
mod pairs;
mod quotes;
pub mod sessions;
mod values;

pub use crossings::{crossing, mirrored};
pub use damage::damage;
pub use legs::{draft, list_of};
pub use messages::message;
pub use pairs::{pair, reversed};
pub use quotes::quote;
pub use values::{market, settings};

use crate::{
    arrival::{Answer, Arrival, RawLeg},
    case::Case,
    numbers::{self, Of},
    random::Random,
    series::Series,
};
use std::collections::{BTreeMap, BTreeSet};
use values::{price, shares};

/// Series with signed counts, before they become bytes.
pub type Draft = Vec<(Series, i64)>;

pub fn legs_of(draft: &Draft) -> Vec<RawLeg> {
    draft
        .iter()
        .map(|(series, count)| series.leg(*count))
        .collect()
}

pub fn shuffle<T>(random: &mut Random, list: &mut [T]) {
    for end in (1..list.len()).rev() {
        list.swap(end, random.index(end + 1));
    }
}

fn side(random: &mut Random) -> i64 {
    *random.pick(&[1, -1])
}

/// A whole arrival, mostly without damage.
pub fn arrival(random: &mut Random) -> Arrival {
    let draft = any_draft(random);
    let settings = settings(random);
    let market = market(random, &draft);
    let mut arrival = order(random, &draft, &settings, &market);
    while random.index(6) == 0 {
        damage(random, &mut arrival);
    }
    arrival
}

/// Legs, now and then none or too many.
fn any_draft(random: &mut Random) -> Draft {
    match random.index(64) {
        0 => Draft::new(),
        1 | 2 => {
            let legs = 14 + random.index(7); // around 16, the most
            list_of(random, legs)
        }
        _ => draft(random, 16),
    }
}

/// An order of some legs, its price at the limits that checks draw under settings and market.
fn order(random: &mut Random, draft: &Draft, settings: &[u64], market: &[u64]) -> Arrival {
    let shares = shares(random, draft);
    let mut arrival = Arrival {
        price: price(random, draft, shares, settings, market),
        kind: u64::from(random.index(4) == 0),
        stop: u64::from(random.index(8) == 0),
        manual: u64::from(random.index(8) == 0),
        opening: u64::from(random.index(4) == 0),
        shares,
        settings: settings.to_vec(),
        market: market.to_vec(),
        ..Arrival::limit(&legs_of(draft), 0)
    };
    if random.index(32) == 0 {
        arrival.kind *= random.number();
        arrival.stop *= random.number();
        arrival.manual *= random.number();
        arrival.opening *= random.number();
    }
    arrival
}

/// For each number of orders, or of messages, one that gets it, the shortest of many, with its
/// answer.
pub fn one_of_each_number<A: Case<Answer = Answer>>(
    random: &mut Random,
    what: Of,
    make: fn(&mut Random) -> A,
) -> Vec<(A, Answer)> {
    let length = |arrival: &A| arrival.to_string().len();
    let mut shortest: BTreeMap<u64, (A, Answer)> = BTreeMap::new();
    for _ in 0..20_000 {
        let arrival = make(random);
        let answer = arrival.second();
        let known = shortest.get(&answer.number);
        if known.is_none_or(|(known, _)| length(&arrival) < length(known)) {
            shortest.insert(answer.number, (arrival, answer));
        }
    }
    let numbers: BTreeSet<u64> = shortest.keys().copied().collect();
    assert_eq!(numbers, numbers::of(what).into_iter().collect());
    shortest.into_values().collect()
}
