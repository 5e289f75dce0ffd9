//! Every quote in every small market.

use super::{of_call, of_put};
use compare::{
    limits::every,
    quote::Quote,
    run::Run,
    slices::{market::*, setting::*},
};

/// Phase and open elsewhere.
const PHASES: [(u64, u64); 5] = [(0, 0), (0, 1), (1, 0), (2, 0), (2, 1)];

/// All six values of a market from 0 to 4, bids and offers from 1 to 6, a call and a put, and ticks
/// of 1. The close decides nothing, so the set ticks, 0 to 2, are taken from it; and the underlying
/// nothing of a put, so its strike, odd and up to 9, is taken from that.
#[test]
fn every_market_of_small_prices() {
    let mut run = Run::new("small markets");
    for values in every::<6, u64>(&[0, 1, 2, 3, 4]) {
        for (phase, open_elsewhere) in PHASES {
            let market = [&[phase, open_elsewhere, 0], &values[..]].concat();
            every_small_quote(&mut run, &market);
        }
    }
    run.finish(&[0, 20, 21, 26], 15_625 * 5 * 2 * 15);
}

fn every_small_quote(run: &mut Run, market: &[u64]) {
    let strike = 2 * market[UNDERLYING] + 1;
    let mut quotes = [of_call(0, 0), of_put(strike, 0, 0)];
    for quote in &mut quotes {
        quote.market = market.to_vec();
        quote.settings[SET_TICKS] = market[PREVIOUS_CLOSE] % 3;
        quote.settings[TICK_BELOW_3000..=TICK_FROM_3000].fill(1);
        for bid in 1..=5 {
            for offer in bid + 1..=6 {
                (quote.bid, quote.offer) = (bid, offer);
                quote.resting = (bid + offer) % 2;
                run.compare(quote);
            }
        }
    }
}

/// National best and own prices from 0 to 6, bids and offers from 1 to 9, 0 to 3 set ticks: room for
/// every sequence of the six prices, with and without the set ticks between them.
#[test]
fn every_sequence_of_prices() {
    let mut run = Run::new("sequences of prices");
    for prices in every::<4, u64>(&[0, 1, 2, 3, 4, 5, 6]) {
        let mut quote = of_call(0, 0);
        quote.settings[TICK_BELOW_3000] = 1;
        quote.market[NBB..=OWN_OFFER].copy_from_slice(&prices);
        for set_ticks in 0..=3 {
            quote.settings[SET_TICKS] = set_ticks;
            for (bid, offer) in (1..=8).flat_map(|bid| (bid + 1..=9).map(move |o| (bid, o))) {
                (quote.bid, quote.offer) = (bid, offer);
                quote.resting = (bid + offer) % 2;
                run.compare(&quote);
            }
        }
    }
    run.finish(&[0, 26], 2_401 * 4 * 36);
    assert!(run.given(0).min(run.given(26)) > 50_000);
}

/// National best and own prices around the limit of the two ticks, at every price next to a limit
/// that one of them could draw.
#[test]
fn every_market_around_3000() {
    const VALUES: [u64; 5] = [0, 2_998, 2_999, 3_000, 3_001];
    const TICKS: [u64; 2] = [11, 13];
    let mut run = Run::new("markets around 3,000");
    for prices in every::<4, u64>(&VALUES) {
        for (phase, open_elsewhere) in [(0, 1), (1, 0)] {
            for set_ticks in [0, 1, 3] {
                let mut quote = of_call(1, 1_000_000);
                quote.settings[SET_TICKS] = set_ticks;
                quote.settings[TICK_BELOW_3000..=TICK_FROM_3000].copy_from_slice(&TICKS);
                quote.market = [&[phase, open_elsewhere, 0, 0], &prices[..], &[0]].concat();
                every_price(&mut run, &quote, &prices_of_interest(set_ticks, TICKS));
            }
        }
    }
    run.finish(&[0, 26], 625 * 2 * 2 * (6 + 22 + 22));
    assert!(run.given(0).min(run.given(26)) > 10_000);
}

fn every_price(run: &mut Run, quote: &Quote, prices: &[u64]) {
    for &price in prices {
        let (mut bid, mut offer) = (quote.clone(), quote.clone());
        bid.bid = price;
        offer.offer = price;
        run.compare(&bid);
        run.compare(&offer);
    }
}

/// Around the prices, and around the set ticks above and below them, by either tick.
fn prices_of_interest(set_ticks: u64, ticks: [u64; 2]) -> Vec<u64> {
    let around = |limit: u64| limit - 3..=limit + 3;
    let mut prices: Vec<u64> = around(3_000).collect();
    for tick in ticks {
        prices.extend(around(3_000 + set_ticks * tick));
        prices.extend(around(3_000 - set_ticks * tick));
    }
    prices.sort_unstable();
    prices.dedup();
    prices
}
