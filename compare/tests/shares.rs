//! Stock-option orders (document 02, S-4): options of every sort with shares, at the prices where
//! 22 draws its line, and where 8, 20, 21, 23, 24 and 25 refuse or reject some of them without
//! shares. Each answer is worked out here from the papers, and each order is put to both alone, in
//! another sequence of its legs, with a tally, and as either order of a pair.

use compare::{
    arrival::{Answer, Arrival, RawLeg},
    class::{CREDIT, DEBIT},
    limits::every,
    numbers::{ACCEPTED, BAD_SHARES},
    pair::{Pair, PairAnswer},
    run::Run,
    series::{call, put},
    slices::{market::*, setting::*},
    tally::{Tallied, TalliedAnswer, Tally},
};

const MARCH: u64 = 160_318;

const LARGEST_PRICE: i64 = 1_000_000_000_000;
const MOST_SHARES: i64 = 1_000_000;

/// The options of an order, and what is known of them.
struct Options {
    legs: Vec<RawLeg>,
    /// The side that all of them are on, if it is one, and the sum of their unit counts' sizes.
    one_sided: Option<(i64, i64)>,
    class: u64,
    shape: u64,
    pairings: u64,
}

fn bought(legs: Vec<RawLeg>, units: i64) -> Options {
    Options {
        legs,
        one_sided: Some((1, units)),
        class: DEBIT,
        shape: 0,
        pairings: 0,
    }
}

fn sold(legs: Vec<RawLeg>, units: i64) -> Options {
    Options {
        one_sided: Some((-1, units)),
        class: CREDIT,
        ..bought(legs, units)
    }
}

/// The numbers of class and shape, and the pairings.
fn of_both_sides(legs: Vec<RawLeg>, [class, shape, pairings]: [u64; 3]) -> Options {
    Options {
        legs,
        one_sided: None,
        class,
        shape,
        pairings,
    }
}

#[rustfmt::skip]
fn all_options() -> Vec<Options> {
    let call = |strike, count| call(MARCH, strike).leg(count);
    let put = |strike, count| put(MARCH, strike).leg(count);
    let row = (1..=16).map(|place| call(place * 1_000, 3)).collect();
    let of_box = vec![call(20_000, -1), call(45_000, 1), put(20_000, 1), put(45_000, -1)];
    vec![
        bought(vec![call(45_000, 1)], 1),
        bought(vec![call(45_000, 10_000)], 1),
        bought(vec![put(45_000, 1)], 1),
        bought(vec![call(45_000, 2), call(50_000, 4)], 3),
        bought(row, 16),
        sold(vec![call(45_000, -1)], 1),
        sold(vec![put(45_000, -7)], 1),
        sold(vec![call(45_000, -1), call(50_000, -1)], 2),
        sold(vec![call(45_000, -6), put(45_000, -9)], 5),
        of_both_sides(vec![call(45_000, 3), call(50_000, -3)], [1, 1, 1]),
        of_both_sides(vec![put(10_000, -1), put(20_000, 2), put(30_000, -1)], [2, 2, 2]),
        of_both_sides(vec![call(20_000, 1), call(25_000, -2), call(35_000, 1)], [0, 3, 2]),
        of_both_sides(of_box, [2, 4, 2]),
        of_both_sides(vec![call(10_000, 1), call(20_000, -2), put(15_000, 1)], [0, 0, 1]),
    ]
}

/// Every value with both signs.
fn of_both_signs(values: &[i64]) -> Vec<i64> {
    let turned = values.iter().map(|value| value.wrapping_neg());
    values.iter().copied().chain(turned).collect()
}

/// The answer that the papers give to an order with shares.
fn answer(options: &Options, order: &Arrival) -> Answer {
    match number(options, order) {
        number @ (8 | BAD_SHARES) => Answer::refusal(number),
        number => Answer {
            number,
            class: options.class,
            shape: options.shape,
            pairings: options.pairings,
        },
    }
}

fn number(options: &Options, order: &Arrival) -> u64 {
    match () {
        () if !(-LARGEST_PRICE..=LARGEST_PRICE).contains(&order.price) => 8,
        () if !(-MOST_SHARES..=MOST_SHARES).contains(&order.shares) => BAD_SHARES,
        () if is_too_cheap(options, order) => 22,
        () => ACCEPTED,
    }
}

/// Whether 22 rejects: the shares are on the side of every option, and the amount is below what the
/// options alone come to.
fn is_too_cheap(options: &Options, order: &Arrival) -> bool {
    let increment = order.settings[NET_INCREMENT] as i64;
    let applies = order.kind == 0 && order.settings[CHECK_22] != 0;
    let one_sided = options.one_sided.filter(|_| applies);
    one_sided.is_some_and(|(side, units)| {
        order.shares.signum() == side && order.price * side < units * increment
    })
}

/// Puts an order to both in every way, and holds the whole answer.
fn hold(run: &mut Run, order: &Arrival, expected: Answer) {
    assert_eq!(run.compare(order), expected, "{order}");
    let mut legs = order.legs();
    legs.reverse();
    let turned = order.with_legs(&legs);
    assert_eq!(run.compare(&turned), expected, "{turned}");
    hold_tallied(run, &turned, expected);
    hold_in_pairs(run, order, expected.number);
}

fn hold_tallied(run: &mut Run, order: &Arrival, answer: Answer) {
    let tallied = Tallied {
        arrival: order.clone(),
        tally: Tally::of_numbers([6, 1, 2, 3]),
    };
    let tally = Tally::of_numbers(match answer.number {
        ACCEPTED => [7, 1, 3, 3],
        22 => [7, 1, 2, 4],
        _ => [7, 2, 2, 3],
    });
    assert_eq!(
        run.compare(&tallied),
        TalliedAnswer { answer, tally },
        "{tallied}"
    );
}

/// Beside an order without shares that gets 0 under every market.
fn hold_in_pairs(run: &mut Run, order: &Arrival, number: u64) {
    let legs = [call(MARCH, 45_000).leg(1), call(MARCH, 50_000).leg(-1)];
    let beside = Arrival::limit(&legs, 1_000).under(&order.settings, &order.market);
    let passes = u64::from(number == ACCEPTED);
    let answer = |agency_number, contra_number| PairAnswer {
        agency_number,
        contra_number,
        agency_passes: passes,
        contra_passes: passes,
    };
    let (agency, contra) = (Pair::of(order, &beside, 0), Pair::of(&beside, order, 0));
    assert_eq!(run.compare(&agency), answer(number, ACCEPTED), "{agency}");
    assert_eq!(run.compare(&contra), answer(ACCEPTED, number), "{contra}");
}

/// The options at a price, so far without shares: limit orders and market orders, without flags and
/// with all, 22 on and off, at two net increments. In this market simple buys are rejected from 101
/// mills on, simple sales up to 999,949.
fn orders(options: &Options, price: i64) -> Vec<Arrival> {
    let mut order = Arrival::limit(&options.legs, price);
    (order.market[UNDERLYING], order.market[OWN_OFFER]) = (100, 50);
    order.market[OWN_BID] = 1_000_000;
    let with = |[kind, flags, check_22, larger]: [u64; 4]| {
        let mut order = order.clone();
        (order.kind, order.settings[CHECK_22]) = (kind, check_22);
        (order.stop, order.manual, order.opening) = (flags, flags, flags);
        order.settings[NET_INCREMENT] += 40 * larger;
        order
    };
    every(&[0, 1]).map(with).collect()
}

#[test]
fn every_sort() {
    let mut run = Run::new("every sort");
    for options in all_options() {
        let units = options.one_sided.map_or(2, |(_, units)| units);
        let lines = [10 * units, 50 * units].map(|line| [line - 1, line, line + 1]);
        let others = [0, 1, 1_000_000, LARGEST_PRICE];
        let too_large = [LARGEST_PRICE + 1, i64::MAX, i64::MIN];
        let prices = of_both_signs(&[&lines.concat()[..], &others, &too_large].concat());
        for order in prices.iter().flat_map(|&price| orders(&options, price)) {
            run.compare(&order);
            let right = [1, 100, MOST_SHARES];
            let too_many = [MOST_SHARES + 1, 1 << 32, i64::MAX, i64::MIN];
            for shares in of_both_signs(&[&right[..], &too_many].concat()) {
                let order = order.with_shares(shares);
                hold(&mut run, &order, answer(&options, &order));
            }
        }
    }
    run.finish(&[0, 8, 20, 21, 22, 23, 24, 25, 33], 14 * 26 * 16 * 14 * 5);
}

/// Document 004: one call and two with 100 shares, all sold, and the same bought; the least amount
/// is that of the text, then that of its footnotes.
#[test]
fn examples_of_document_004() {
    let mut run = Run::new("document 004");
    let strikes = [45_000, 50_000];
    for (calls, increment, least) in [(1, 10, 10), (2, 10, 20), (1, 50, 50), (2, 50, 100)] {
        for side in [-1, 1] {
            let legs = strikes[..calls].iter();
            let legs: Vec<RawLeg> = legs.map(|&strike| call(MARCH, strike).leg(side)).collect();
            let mut hold = |amount: i64, number| {
                let mut order = Arrival::limit(&legs, amount * side).with_shares(100 * side);
                order.settings[NET_INCREMENT] = increment;
                let class = if side > 0 { DEBIT } else { CREDIT };
                let answer = Answer {
                    number,
                    class,
                    ..Answer::refusal(number)
                };
                hold(&mut run, &order, answer);
            };
            for amount in [0, -1, -1_000, 1, least - 1] {
                hold(amount, 22);
            }
            for amount in [least, least + 1, 1_000] {
                hold(amount, ACCEPTED);
            }
        }
    }
    run.finish(&[0, 22], 4 * 2 * 8 * 5);
}
