//! Quotes put to both implementations, beyond what a line of a case can say, or too many for lines:
//! symbols of every length and with every byte, faults together; made up at random, with a count of
//! the situations that they were in; and every quote in every small market.

mod random;
mod situation;
mod small_markets;

use compare::{
    limits::{every_length, faults_together, Fault},
    numbers::{kind, Kind},
    quote::Quote,
    run::Run,
    series::{call, put},
    slices::{market::*, setting::*},
};

const MARCH: u64 = 160_318;

/// A quote of a call, which no check rejects while the market's values are missing.
fn of_call(bid: u64, offer: u64) -> Quote {
    Quote::new(&call(MARCH, 20_000).symbol(), bid, offer)
}

fn of_put(strike: u64, bid: u64, offer: u64) -> Quote {
    Quote::new(&put(MARCH, strike).symbol(), bid, offer)
}

/// Puts a quote to both, with and without one resting, and holds number and cancel flag.
fn hold(run: &mut Run, quote: &Quote, number: u64) {
    for resting in [0, 1] {
        let quote = Quote {
            resting,
            ..quote.clone()
        };
        let answer = run.compare(&quote);
        let cancel = if kind(number) == Kind::Rejected {
            resting
        } else {
            0
        };
        assert_eq!((answer.number, answer.cancel), (number, cancel), "{quote}");
    }
}

#[test]
fn symbols() {
    let mut run = Run::new("symbols of quotes");
    let plain = of_call(1_000, 1_100);
    for length in 0..=64 {
        let mut quote = plain.clone();
        quote.symbol.resize(length, b'0');
        hold(&mut run, &quote, if length == 21 { 0 } else { 1 });
    }
    for place in 0..21 {
        for byte in 0..=u8::MAX {
            let mut quote = plain.clone();
            quote.symbol[place] = byte;
            run.compare(&quote);
        }
    }
    run.finish(&[0, 1, 4], 21 * 256);
}

/// Any faults together, settings and market of any length, and what 20 and 26 reject: the lowest
/// number is given.
#[test]
fn lowest_number_first() {
    const FAULTS: [Fault<Quote>; 7] = [
        (1, |quote| quote.symbol.push(b'0')),
        (4, |quote| quote.symbol[0] = b'x'),
        (9, |quote| quote.settings[SET_TICKS] = 1_001),
        (10, |quote| quote.market[PREVIOUS_CLOSE] = 1_000_000_001),
        (11, |quote| quote.offer = quote.bid),
        (20, |quote| quote.bid = 18_000),
        (26, |quote| quote.market[NBO] = 17_000),
    ];
    let mut run = Run::new("faults of quotes");
    let accepted = of_put(18_000, 17_000, 18_001);
    for (quote, number) in faults_together(&accepted, &FAULTS) {
        for (settings, market, number) in every_length(number) {
            let mut quote = quote.clone();
            quote.settings.resize(settings, 1);
            quote.market.resize(market, 1);
            hold(&mut run, &quote, number);
        }
    }
    run.finish(&[0, 1, 4, 9, 10, 11, 20, 26], 2 * 80 * 128);
}
