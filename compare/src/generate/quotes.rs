//! Quotes: bid or offer at the limits that 20, 21 and 26 draw, under markets in which the own
//! prices often are the national best.

use super::{
    damage::{damage_market, damage_settings},
    legs::list_of,
    values,
};
use crate::{
    checks,
    quote::Quote,
    random::Random,
    slices::{market::*, setting::*},
};

const LARGEST: i128 = 1_000_000_000;

/// A whole quote, mostly without damage.
pub fn quote(random: &mut Random) -> Quote {
    let draft = list_of(random, 1);
    let (series, _) = draft[0];
    let mut settings = values::settings(random);
    if random.index(4) == 0 {
        settings[SET_TICKS] = random.between(0, 5);
    }
    let mut market = values::market(random, &draft);
    if random.index(2) == 0 {
        market[OWN_BID] = market[NBB];
    }
    if random.index(2) == 0 {
        market[OWN_OFFER] = market[NBO];
    }
    let (bid, offer) = prices(random, series.strike, &settings, &market);
    let mut quote = Quote {
        resting: random.between(0, 1),
        settings,
        market,
        ..Quote::new(&series.symbol(), bid, offer)
    };
    if random.index(16) == 0 {
        quote.resting *= *random.pick(&[2, 256, 1 << 32, 1 << 63, u64::MAX]);
    }
    while random.index(8) == 0 {
        damage(random, &mut quote);
    }
    quote
}

/// Bid and offer: one of them at a limit and the other not far away, or both at limits.
fn prices(random: &mut Random, strike: u64, settings: &[u64], market: &[u64]) -> (u64, u64) {
    let limits = limits(strike, settings, market);
    let limit = |random: &mut Random| random.pick(&limits) + *random.pick(&[-1, 0, 0, 1]);
    let apart = *random.pick(&[1, 1, 2, 5, 10, 100, 1_000, LARGEST]);
    let (one, other) = (limit(random), limit(random));
    let (bid, offer) = match random.index(8) {
        0..=2 => (one, one + apart),
        3..=5 => (one - apart, one),
        _ => (one.min(other), one.max(other)),
    };
    let inside = |price: i128| price.clamp(1, LARGEST) as u64;
    match random.index(16) {
        0 => (bid.max(0) as u64, offer.max(0) as u64), // perhaps outside the limits of quotes
        _ => (inside(bid), inside(offer)),
    }
}

/// The limits that checks draw for a quote, whichever of them apply.
fn limits(strike: u64, settings: &[u64], market: &[u64]) -> Vec<i128> {
    let mut limits = vec![strike.into(), market[UNDERLYING].into()];
    for price in market[NBB..=OWN_OFFER].iter().copied().map(i128::from) {
        let set = i128::from(settings[SET_TICKS]) * checks::tick(settings, price);
        limits.extend([price, price + set, price - set]);
    }
    limits.retain(|&limit| limit > 0);
    limits
}

/// Makes one thing wrong, or perhaps just unusual.
fn damage(random: &mut Random, quote: &mut Quote) {
    match random.index(12) {
        0 => {
            let length = *random.pick(&[0, 1, 20, 21, 22, 42]);
            quote.symbol.resize(length, b'0');
        }
        1 | 2 if !quote.symbol.is_empty() => {
            let place = random.index(quote.symbol.len());
            quote.symbol[place] = *random.pick(b" AZCPXacz0123459+-/:@[");
        }
        3 => (quote.bid, quote.offer) = (quote.offer, quote.bid),
        4 => quote.bid = wrong_price(random),
        5 => quote.offer = wrong_price(random),
        6 => quote.offer = quote.bid,
        7 | 8 => damage_settings(random, &mut quote.settings),
        _ => damage_market(random, &mut quote.market),
    }
}

fn wrong_price(random: &mut Random) -> u64 {
    *random.pick(&[
        0,
        1,
        1_000_000_000,
        1_000_000_001,
        1 << 32,
        1 << 63,
        u64::MAX,
    ])
}
