//! The papers' own examples, each also from the other side, with its prices in a mirror.

use super::{bid, put, turned};
use compare::{
    crossing::{Crossing, CrossingAnswer},
    numbers::ACCEPTED,
    run::Run,
    slices::{market::*, setting::*},
};

/// Document 02's offers, in dollars and hundredths; filing 000 has 20 of the last.
fn offers(of_last: u64) -> [(u64, u64); 5] {
    let last = (1_240, of_last);
    [(1_200, 10), (1_210, 20), (1_220, 10), (1_230, 10), last]
}

/// A bid for 100, with the best away offer at 1.23.
fn bid_for_100(price: u64, of_last: u64) -> Crossing {
    let mut crossing = bid(price, 100, &offers(of_last));
    crossing.quote.offer = 1_500;
    crossing.away = 1_230;
    crossing
}

/// In this mirror 1.20 stays where it is, and an offer at 1.23 becomes a bid at 1.17.
fn around_1_20(price: u64) -> u64 {
    2_400 - price
}

/// Settings stay as they are; of the market's prices the bids become offers.
fn sale(crossing: &Crossing) -> Crossing {
    let mut other = turned(crossing, around_1_20);
    let market = &mut other.quote.market;
    for (one, from) in [
        (NBB, NBO),
        (NBO, NBB),
        (OWN_BID, OWN_OFFER),
        (OWN_OFFER, OWN_BID),
    ] {
        market[one] = match crossing.quote.market[from] {
            0 => 0,
            price => around_1_20(price),
        };
    }
    other
}

fn executed(fills: [u64; 5], booked: u64, cancelled: u64) -> CrossingAnswer {
    CrossingAnswer {
        number: ACCEPTED,
        cancel: 0,
        executed: fills.iter().sum(),
        booked,
        cancelled,
        fills: fills.to_vec(),
    }
}

/// Puts it and its mirror to both, with a quote resting, and holds both to the answer.
fn hold(run: &mut Run, crossing: &Crossing, answer: &CrossingAnswer) {
    let mut crossing = crossing.clone();
    crossing.quote.resting = 1;
    for one in [&crossing, &sale(&crossing)] {
        assert_eq!(put(run, one), *answer, "{one}");
    }
}

#[test]
fn document_02() {
    let mut run = Run::new("document 02's examples");
    let (first, second) = (bid_for_100(1_240, 10), bid_for_100(1_220, 10));
    hold(&mut run, &first, &executed([10, 20, 10, 10, 0], 0, 50));
    hold(&mut run, &second, &executed([10, 20, 10, 0, 0], 60, 0));
    let sold = sale(&first);
    assert_eq!(sold.prices, [1_200, 1_190, 1_180, 1_170, 1_160]);
    assert_eq!((sold.quote.offer, sold.away), (1_160, 1_170));
    run.finish(&[ACCEPTED], 4);
}

/// The NBBO is 1.00 to 1.20, the distance five ticks of 0.01. The own offer is the NBO; where an away
/// exchange has that, 26 rejects the first bid.
#[test]
fn filing_000() {
    let mut run = Run::new("filing 000's examples");
    let under_filing = |price| {
        let mut crossing = bid_for_100(price, 20);
        crossing.quote.settings[SET_TICKS] = 5;
        crossing.quote.market[NBB..=OWN_OFFER].copy_from_slice(&[1_000, 1_200, 0, 1_200]);
        crossing
    };
    let fills = [10, 20, 10, 10, 0];
    hold(&mut run, &under_filing(1_240), &executed(fills, 0, 50));
    let fills = [10, 20, 10, 0, 0];
    hold(&mut run, &under_filing(1_220), &executed(fills, 60, 0));
    let mut elsewhere = under_filing(1_240);
    for own_offer in [0, 1_210] {
        elsewhere.quote.market[OWN_OFFER] = own_offer;
        let rejected = CrossingAnswer {
            number: 26,
            cancel: 1,
            ..executed([0; 5], 0, 0)
        };
        hold(&mut run, &elsewhere, &rejected);
    }
    run.finish(&[ACCEPTED, 26], 8);
}
