//! Orders of every number beside each other.

use super::{calls, hold, MARCH};
use compare::{
    arrival::{Arrival, RawLeg},
    limits::every_length,
    numbers::{self, kind, Kind, Of, BAD_MARKET, BAD_SETTING},
    run::Run,
    series::{call, put},
    slices::{market::*, setting::*},
};

/// Orders for each number that an order can get by itself, 0 among them, under one market.
fn orders() -> Vec<(Arrival, u64)> {
    let mut orders = rejected();
    orders.extend(refused());
    let one_leg = |leg: RawLeg, price| (Arrival::limit(&[leg], price), 0);
    orders.extend([
        one_leg(call(MARCH, 20_000).leg(1), 1_250),
        one_leg(call(MARCH, 20_000).leg(-1), -1_050),
    ]);
    orders.extend(with_shares());
    for (order, _) in &mut orders {
        order.market[UNDERLYING] = 10_000;
        order.market[NBB..=NBO].copy_from_slice(&[1_100, 1_200]);
    }
    orders
}

fn rejected() -> Vec<(Arrival, u64)> {
    let vertical = [call(MARCH, 20_000).leg(3), call(MARCH, 25_000).leg(-3)];
    vec![
        (Arrival::limit(&[put(MARCH, 18_000).leg(1)], 18_000), 20),
        (Arrival::limit(&[call(MARCH, 20_000).leg(1)], 10_000), 21),
        (Arrival::limit(&calls(2).legs(), 19), 22),
        (Arrival::limit(&vertical, -1), 23),
        (Arrival::limit(&vertical, 5_151), 24),
        (Arrival::limit(&[call(MARCH, 20_000).leg(1)], 1_251), 25),
    ]
}

/// One leg that 8, 20, 21 and 25 would see without its shares.
fn with_shares() -> Vec<(Arrival, u64)> {
    let one_leg = |leg, price, shares| Arrival::limit(&[leg], price).with_shares(shares);
    let (bought, sold) = (call(MARCH, 20_000).leg(1), call(MARCH, 20_000).leg(-1));
    vec![
        (one_leg(bought, 10_000, 100), 0),
        (one_leg(sold, 1_000, 100), 0),
        (one_leg(sold, 1_000, -100), 22),
        (one_leg(put(MARCH, 18_000).leg(1), 18_000, 1_000_001), 33),
        (one_leg(sold, 1_000, i64::MIN), 33),
    ]
}

fn refused() -> Vec<(Arrival, u64)> {
    let two = |second: RawLeg| Arrival::limit(&[call(MARCH, 20_000).leg(1), second], 1_000);
    let mut broken = calls(2);
    broken.counts.pop();
    let mut other_root = call(MARCH, 25_000);
    other_root.root = "XYZ7";
    vec![
        (broken, 1),
        (calls(0), 3),
        (calls(17), 3),
        (two(call(0, 25_000).leg(1)), 4),
        (two(call(MARCH, 25_000).leg(10_001)), 5),
        (two(call(MARCH, 20_000).leg(-1)), 6),
        (two(other_root.leg(1)), 7),
        (Arrival::limit(&[call(MARCH, 20_000).leg(1)], -1_000), 8),
    ]
}

/// Every two orders, with settings and market of every length: each order gets its own number,
/// whatever the other is.
#[test]
fn every_two_numbers() {
    let mut run = Run::new("two numbers");
    for (agency, number) in orders() {
        for (contra, contra_number) in orders() {
            let lengths = every_length(number).into_iter();
            let lengths = lengths.zip(every_length(contra_number));
            for ((settings, market, number), (_, _, contra_number)) in lengths {
                let mut agency = agency.clone();
                agency.settings.resize(settings, 1);
                agency.market.resize(market, 1);
                hold(&mut run, [&agency, &contra], [number, contra_number]);
            }
        }
    }
    run.finish(&[], 4 * 21 * 21 * 80);
    run.require_of_pairs(&numbers::of(Of::Order), 16);
}

/// The same where a setting or the market's phase is outside its limits: what an order is refused
/// for by itself comes before that.
#[test]
fn every_two_numbers_under_wrong_terms() {
    let mut run = Run::new("wrong terms");
    let first = |number: u64, of_terms| match kind(number) {
        Kind::Refused => number,
        _ => of_terms,
    };
    for (agency, number) in orders() {
        for (contra, contra_number) in orders() {
            let mut agency = agency.clone();
            agency.market[PHASE] = 3;
            let numbers = [number, contra_number].map(|number| first(number, BAD_MARKET));
            hold(&mut run, [&agency, &contra], numbers);
            agency.settings[SET_TICKS] = 1_001;
            let numbers = [number, contra_number].map(|number| first(number, BAD_SETTING));
            hold(&mut run, [&agency, &contra], numbers);
        }
    }
    run.finish(&[1, 3, 4, 5, 6, 7, 8, 9, 10, 33], 2 * 4 * 21 * 21);
}
