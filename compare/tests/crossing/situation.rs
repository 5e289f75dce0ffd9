//! In which situation a crossing quote is, so that a random run can be asked whether it met them all.
//! What the situation leads to is not decided here.

use super::statements::is_allowed;
use compare::crossing::{Crossing, CrossingAnswer};

/// Where the away price is, as the quote's own price sees it: beyond it lies what is not met.
#[derive(Clone, Copy, Debug, PartialEq, Eq, PartialOrd, Ord)]
pub enum Away {
    Missing,
    Better,
    AtOwn,
    Beyond,
}

/// Where the quote ends.
#[derive(Clone, Copy, Debug, PartialEq, Eq, PartialOrd, Ord)]
pub enum End {
    NothingExecuted,
    WithinOffer,
    WithOffer,
    LeftOver,
}

/// Whether it is a sell, and whether something rests behind the last that is filled.
pub type Situation = (bool, Away, End, bool);

/// A price that is met or not by one mill, while something of the quote is left.
#[derive(Clone, Copy, Debug, PartialEq, Eq, PartialOrd, Ord)]
pub enum Edge {
    AtOwn,
    OneBeyondOwn,
    AtAway,
    OneBeyondAway,
}

pub const EDGES: [Edge; 4] = [
    Edge::AtOwn,
    Edge::OneBeyondOwn,
    Edge::AtAway,
    Edge::OneBeyondAway,
];

pub fn of(crossing: &Crossing, answer: &CrossingAnswer) -> Situation {
    let (own, sell) = (crossing.own_price(), crossing.is_sell());
    let away = match crossing.away {
        0 => Away::Missing,
        away if away == own => Away::AtOwn,
        away if (away > own) == sell => Away::Better,
        _ => Away::Beyond,
    };
    let last = answer.fills.iter().rposition(|&fill| fill > 0);
    let end = match last {
        None => End::NothingExecuted,
        Some(_) if answer.executed < crossing.size => End::LeftOver,
        Some(last) if answer.fills[last] < crossing.sizes[last] => End::WithinOffer,
        Some(_) => End::WithOffer,
    };
    let behind = crossing.prices.len() > last.map_or(0, |last| last + 1);
    (sell, away, end, behind)
}

/// Every situation that there is.
pub fn all() -> Vec<Situation> {
    let mut all = Vec::new();
    for sell in [false, true] {
        for away in [Away::Missing, Away::Better, Away::AtOwn, Away::Beyond] {
            for end in [
                End::NothingExecuted,
                End::WithinOffer,
                End::WithOffer,
                End::LeftOver,
            ] {
                all.extend([false, true].map(|behind| (sell, away, end, behind)));
            }
        }
    }
    all
}

/// The edges that a price lies at. Of two limits the nearer one decides.
pub fn edges(crossing: &Crossing, price: u64) -> Vec<Edge> {
    let limits = [
        (crossing.own_price(), Edge::AtOwn, Edge::OneBeyondOwn),
        (crossing.away, Edge::AtAway, Edge::OneBeyondAway),
    ];
    let decides = |limit: u64| limit != 0 && is_allowed(crossing, limit);
    let deciding = limits.into_iter().filter(|(limit, ..)| decides(*limit));
    let edge = |(limit, at, beyond)| match crossing.is_sell() {
        _ if price == limit => Some(at),
        true if price + 1 == limit => Some(beyond),
        false if price == limit + 1 => Some(beyond),
        _ => None,
    };
    deciding.filter_map(edge).collect()
}

/// What makes a list one that 36 is given for.
pub const FAULTS: [&str; 9] = [
    "lists of different lengths",
    "more than 64",
    "fewer numbers for the fills",
    "one price twice",
    "prices in the other direction",
    "a price outside its limits",
    "a size outside its limits",
    "the quote's size outside its limits",
    "the away price outside its limits",
];

pub fn faults(crossing: &Crossing) -> Vec<&'static str> {
    let Crossing { prices, sizes, .. } = crossing;
    let is_wrong = |value: &u64, most: u64| *value == 0 || *value > most;
    let turns = |two: &[u64]| two[0] != two[1] && (two[0] > two[1]) != crossing.is_sell();
    let applies = [
        prices.len() != sizes.len(),
        prices.len() > 64,
        prices.len() > crossing.fills_length,
        prices.windows(2).any(|two| two[0] == two[1]),
        prices.windows(2).any(turns),
        prices.iter().any(|price| is_wrong(price, 1_000_000_000)),
        sizes.iter().any(|size| is_wrong(size, 1_000_000)),
        is_wrong(&crossing.size, 1_000_000),
        crossing.away > 1_000_000_000,
    ];
    let named = FAULTS.into_iter().zip(applies);
    named
        .filter_map(|(fault, applies)| applies.then_some(fault))
        .collect()
}
