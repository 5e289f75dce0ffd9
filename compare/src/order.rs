//! The whole order check, by another method than the proved one: every rule is a predicate of its
//! own, all are asked, and the first number among those that apply is given.

use crate::{
    arrival::{Answer, Arrival},
    checks::{self, Order},
    class,
    legs::{units, Leg},
    numbers::{first, ACCEPTED, BAD_MARKET, BAD_SETTING, BAD_SHARES, BAD_SYMBOL, NOT_21_BYTES},
    osi,
    pairing::{self, Paired},
    shape::Shape,
    slices::{market, setting::*},
    Parts, SYMBOL_LENGTH,
};
use std::ops::RangeInclusive;

const COUNT_LENGTH: usize = 8;
const MOST_LEGS: usize = 16;
const LARGEST_COUNT: i128 = 10_000;
const LARGEST_PRICE: i128 = 1_000_000_000_000;
const LARGEST_SHARES: i128 = 1_000_000;
const LARGEST_MARKET_VALUE: u64 = 1_000_000_000;

/// The check, with the quick pairing.
pub fn check(arrival: &Arrival) -> Answer {
    check_paired(arrival, pairing::by_levels)
}

/// The check, with every contract matched by itself.
pub fn check_by_contracts(arrival: &Arrival) -> Answer {
    check_paired(arrival, pairing::by_contracts)
}

fn check_paired(arrival: &Arrival, pair: fn(&[Leg], bool) -> Paired) -> Answer {
    let legs = RawLegs::of(arrival);
    if let Some(number) = first(&refusals(arrival, &legs)) {
        return Answer::refusal(number);
    }
    let order_legs = legs.valid();
    let units = units(&order_legs);
    let shape = Shape::of(&units);
    let paired = pair(&order_legs, arrival.settings[EUROPEAN_INDEX] != 0);
    let order = Order {
        class: class::of(&order_legs, &shape, &paired),
        units,
        price: arrival.price.into(),
        is_market: arrival.kind != 0,
        stop: arrival.stop != 0,
        manual: arrival.manual != 0,
        opening: arrival.opening != 0,
        shares: arrival.shares.into(),
        shape,
    };
    let checks = checks::all(&order, &arrival.settings, &arrival.market);
    Answer {
        number: first(&checks).unwrap_or(ACCEPTED),
        class: order.class,
        shape: shape.number(),
        pairings: paired.pairings,
    }
}

/// The legs as they arrive; none if the slices do not divide into legs.
struct RawLegs<'a> {
    broken: bool,
    symbols: Vec<&'a [u8]>,
    parts: Vec<Option<Parts>>,
    counts: Vec<i128>,
}

impl<'a> RawLegs<'a> {
    fn of(arrival: &'a Arrival) -> Self {
        let (symbols, counts) = (&arrival.symbols, &arrival.counts);
        let number = counts.len() / COUNT_LENGTH;
        let broken = counts.len() % COUNT_LENGTH != 0 || symbols.len() != number * SYMBOL_LENGTH;
        let number = if broken { 0 } else { number };
        let symbols: Vec<&[u8]> = symbols.chunks(SYMBOL_LENGTH).take(number).collect();
        let read = |symbol: &&[u8]| match osi::read(symbol) {
            read if read.number == ACCEPTED => Some(read.parts),
            _ => None,
        };
        RawLegs {
            broken,
            parts: symbols.iter().map(read).collect(),
            symbols,
            counts: counts
                .chunks(COUNT_LENGTH)
                .take(number)
                .map(signed)
                .collect(),
        }
    }

    /// The legs of an order that is not refused.
    fn valid(&self) -> Vec<Leg> {
        let legs = self.parts.iter().zip(&self.counts);
        legs.map(|(parts, &count)| Leg::of_parts(&parts.expect("not refused"), count))
            .collect()
    }
}

/// Two's complement, low byte first.
fn signed(bytes: &[u8]) -> i128 {
    let digits = bytes.iter().rev();
    let unsigned = digits.fold(0, |value, &digit| value * 256 + i128::from(digit));
    if unsigned < 1 << 63 {
        unsigned
    } else {
        unsigned - (1 << 64)
    }
}

/// Every refusal with whether it applies.
fn refusals(arrival: &Arrival, legs: &RawLegs) -> [(u64, bool); 10] {
    let [price, shares] = [arrival.price, arrival.shares].map(i128::from);
    [
        (BAD_MARKET, !market_is_within_limits(&arrival.market)),
        (BAD_SETTING, !settings_are_within_limits(&arrival.settings)),
        (BAD_SHARES, shares.abs() > LARGEST_SHARES),
        (8, price_is_wrong(price, &legs.counts, shares)),
        (7, some_two(&legs.parts, roots_differ)),
        (6, some_two(&legs.symbols, |one, other| one == other)),
        (5, legs.counts.iter().any(|&count| count_is_wrong(count))),
        (BAD_SYMBOL, legs.parts.contains(&None)),
        (3, !(1..=MOST_LEGS).contains(&legs.symbols.len())),
        (NOT_21_BYTES, legs.broken),
    ]
}

/// Whether two elements at different places have something in common.
fn some_two<T>(list: &[T], common: impl Fn(&T, &T) -> bool) -> bool {
    let at = |place| &list[place];
    (0..list.len()).any(|first| (0..first).any(|second| common(at(first), at(second))))
}

fn roots_differ(one: &Option<Parts>, other: &Option<Parts>) -> bool {
    match (one, other) {
        (Some(one), Some(other)) => one.root != other.root,
        _ => false, // refused for its symbol
    }
}

fn count_is_wrong(count: i128) -> bool {
    count == 0 || count.abs() > LARGEST_COUNT
}

fn price_is_wrong(price: i128, counts: &[i128], shares: i128) -> bool {
    // Of a simple order count and price have the same sign: it pays to buy, and is paid to sell.
    // Any shares, too many among them, make the order complex.
    let sign_is_wrong = match *counts {
        [count] if shares == 0 => count.signum() != price.signum(),
        _ => false,
    };
    price.abs() > LARGEST_PRICE || sign_is_wrong
}

pub fn settings_are_within_limits(settings: &[u64]) -> bool {
    let all = |places: RangeInclusive<usize>, limits: RangeInclusive<u64>| {
        settings[places].iter().all(|value| limits.contains(value))
    };
    settings.len() == LENGTH
        && all(TICK_BELOW_3000..=NET_INCREMENT, 1..=1_000)
        && all(ATD_BELOW_1000..=ATD_FROM_10000, 2..=1_000)
        && all(PERCENTAGE..=PERCENTAGE, 0..=10_000)
        && all(PRESET_MINIMUM..=PRESET_MAXIMUM, 0..=1_000_000)
        && settings[PRESET_MINIMUM..=PRESET_MAXIMUM].is_sorted()
        && all(SET_TICKS..=SET_TICKS, 0..=1_000)
}

pub fn market_is_within_limits(market: &[u64]) -> bool {
    let [phase, _open_elsewhere, _extended_hours, values @ ..] = market else {
        return false;
    };
    market.len() == market::LENGTH
        && *phase <= 2
        && values.iter().all(|&value| value <= LARGEST_MARKET_VALUE)
}
