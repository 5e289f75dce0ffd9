//! Orders per second of the library and of the second implementation, in one run over the same
//! valid orders: `cargo run --release --bin rates`.
//!
//! The second implementation is written to be unlike the proved one, not to be fast; its rate is
//! there as a measure of the machine.

use compare::{
    arrival::{Answer, Arrival},
    generate::{legs_of, list_of},
    numbers::{kind, Kind},
    order,
    random::Random,
    unit,
};
use std::{hint::black_box, time::Instant};

const ORDERS: usize = 4_000;
const ROUNDS: usize = 7;
const MOST_LEGS: usize = 16;

fn main() {
    let mut random = Random::new(1);
    println!("legs   library/s    ns each    second/s    ns each");
    for legs in [1, 2, 4, 8, 16] {
        let orders = (0..ORDERS).map(|_| valid_order(&mut random, legs));
        row(&legs.to_string(), &orders.collect::<Vec<_>>());
    }
    let mix = (0..ORDERS).map(|place| valid_order(&mut random, place % MOST_LEGS + 1));
    row("mix", &mix.collect::<Vec<_>>());
}

/// An order of so many legs that is not refused, under the settings of the examples.
fn valid_order(random: &mut Random, legs: usize) -> Arrival {
    loop {
        let draft = list_of(random, legs);
        let price = draft[0].1.signum() * 1_000;
        let arrival = Arrival::limit(&legs_of(&draft), price);
        let number = order::check(&arrival).number;
        if draft.len() == legs && kind(number) != Kind::Refused {
            return arrival;
        }
    }
}

fn row(name: &str, orders: &[Arrival]) {
    for arrival in orders {
        assert_eq!(
            unit::check_order(arrival),
            order::check(arrival),
            "{arrival}"
        );
    }
    // In turns, so that both meet the same machine; the best round is the least disturbed one.
    let (mut library, mut second) = (f64::MAX, f64::MAX);
    for _ in 0..ROUNDS {
        library = library.min(seconds_each(orders, unit::check_order));
        second = second.min(seconds_each(orders, order::check));
    }
    let rate = |seconds: f64| format!("{:>11.0} {:>10.0}", 1.0 / seconds, seconds * 1e9);
    println!("{name:<4} {} {}", rate(library), rate(second));
}

fn seconds_each(orders: &[Arrival], check: fn(&Arrival) -> Answer) -> f64 {
    let start = Instant::now();
    for arrival in orders {
        black_box(check(black_box(arrival)));
    }
    start.elapsed().as_secs_f64() / orders.len() as f64
}
