//! The whole quote check, by another method than the proved one. As in `order`, every rule is a
//! predicate of its own, all are asked, and the first number among those that apply is given.
//!
//! 20 and 21 are asked of a simple limit order to buy at the bid. For 26 no distance is compared:
//! the first price that is rejected is worked out. Money is signed as in `checks`, so an offer is a
//! bid seen from the other side of zero. And an NBBO that is locked, crossed or unavailable needs
//! no rule of its own: the own price, put in its place, always equals itself.

use crate::{
    checks::{self, Order, Seen},
    class::DEBIT,
    legs::Leg,
    numbers::{first, ACCEPTED, BAD_MARKET, BAD_SETTING, BAD_SYMBOL, NOT_21_BYTES},
    order::{market_is_within_limits, settings_are_within_limits},
    osi,
    quote::{Quote, QuoteAnswer},
    shape::Shape,
    slices::{market::*, setting::*},
    Parts,
};

pub const LARGEST_QUOTE: u64 = 1_000_000_000;

pub fn check(quote: &Quote) -> QuoteAnswer {
    let read = osi::read(&quote.symbol);
    if let Some(number) = first(&refusals(quote, read.number)) {
        return QuoteAnswer { number, cancel: 0 };
    }
    match first(&rejections(quote, &read.parts)) {
        None => QuoteAnswer {
            number: ACCEPTED,
            cancel: 0,
        },
        Some(number) => QuoteAnswer {
            number,
            cancel: quote.resting.min(1),
        },
    }
}

/// Every refusal with whether it applies.
fn refusals(quote: &Quote, read: u64) -> [(u64, bool); 5] {
    let limits = 1..=LARGEST_QUOTE;
    let inside = limits.contains(&quote.bid) && limits.contains(&quote.offer);
    [
        (11, !inside || quote.bid >= quote.offer),
        (BAD_MARKET, !market_is_within_limits(&quote.market)),
        (BAD_SETTING, !settings_are_within_limits(&quote.settings)),
        (BAD_SYMBOL, read == BAD_SYMBOL),
        (NOT_21_BYTES, read == NOT_21_BYTES),
    ]
}

/// Every check with whether it is on and rejects the quote.
fn rejections(quote: &Quote, parts: &Parts) -> [(u64, bool); 3] {
    let checks = checks::all(&purchase(quote, parts), &quote.settings, &quote.market);
    let [put_strike, call_underlying, ..] = checks;
    let inverted = quote.settings[CHECK_26] != 0 && inversion(quote);
    [put_strike, call_underlying, (26, inverted)]
}

/// The bid as a simple limit order.
fn purchase(quote: &Quote, parts: &Parts) -> Order {
    Order {
        units: vec![Leg::of_parts(parts, 1)],
        price: quote.bid.into(),
        is_market: false,
        stop: false,
        manual: false,
        opening: false,
        shares: 0,
        class: DEBIT,
        shape: Shape::Other,
    }
}

fn inversion(quote: &Quote) -> bool {
    let (phase, open_elsewhere) = (quote.market[PHASE], quote.market[OPEN_ELSEWHERE]);
    if phase == HALT || phase == PRE_OPENING && open_elsewhere == 0 {
        return false;
    }
    let sides = [(1, quote.bid), (-1, quote.offer)];
    sides.into_iter().any(|(side, price)| {
        let first = first_rejected(&quote.settings, &Seen::from(&quote.market, side));
        first.is_some_and(|first| i128::from(price) * side >= first)
    })
}

/// The lowest price that 26 rejects, as that side sees it; none if nothing is there to compare with.
fn first_rejected(settings: &[u64], seen: &Seen) -> Option<i128> {
    let compared = if seen.nbbo_is_unreliable() {
        seen.own_far
    } else {
        seen.far
    };
    let beyond = i128::from(settings[SET_TICKS]) * checks::tick(settings, compared) + 1;
    match () {
        () if compared == 0 => None,
        () if compared == seen.own_far => Some(compared + beyond),
        () => Some(compared),
    }
}

#[cfg(test)]
mod tests {
    use super::*;
    use crate::random::Random;

    /// Document 01's words on 26, for the bid and then for the offer.
    fn to_the_letter(quote: &Quote) -> bool {
        let [nbb, nbo, own_bid, own_offer] =
            [NBB, NBO, OWN_BID, OWN_OFFER].map(|at| quote.market[at]);
        let (set, bid, offer) = (quote.settings[SET_TICKS], quote.bid, quote.offer);
        let tick = |price| match price {
            0..=2_999 => quote.settings[TICK_BELOW_3000],
            _ => quote.settings[TICK_FROM_3000],
        };
        let unavailable = nbb == 0 && nbo == 0;
        let locked = nbb == nbo && nbb != 0;
        let crossed = nbb != 0 && nbo != 0 && nbb > nbo;
        if unavailable || locked || crossed {
            let bid_rejected = own_offer != 0 && bid > own_offer + set * tick(own_offer);
            let offer_rejected = own_bid != 0 && own_bid > offer + set * tick(own_bid);
            return bid_rejected || offer_rejected;
        }
        let bid_rejected = nbo != 0
            && if own_offer == nbo {
                bid > nbo + set * tick(nbo)
            } else {
                bid >= nbo
            };
        let offer_rejected = nbb != 0
            && if own_bid == nbb {
                nbb > offer + set * tick(nbb)
            } else {
                offer <= nbb
            };
        bid_rejected || offer_rejected
    }

    #[test]
    fn inversion_is_what_document_01_says() {
        let mut random = Random::new(3);
        let mut rejected = 0;
        for _ in 0..500_000 {
            let low = *random.pick(&[0, 2_995]);
            let price = |random: &mut Random| match random.index(4) {
                0 => 0,
                _ => low + random.between(1, 9),
            };
            let mut quote = Quote::new(b"", 0, 0);
            quote.market[NBB..=OWN_OFFER].fill_with(|| price(&mut random));
            (quote.bid, quote.offer) = (low + random.between(1, 9), low + random.between(1, 12));
            quote.settings[SET_TICKS] = random.between(0, 2);
            quote.settings[TICK_BELOW_3000] = random.between(1, 2);
            quote.settings[TICK_FROM_3000] = random.between(1, 3);
            let (phase, open_elsewhere) = (random.between(0, 2), random.between(0, 1));
            (quote.market[PHASE], quote.market[OPEN_ELSEWHERE]) = (phase, open_elsewhere);
            let applies = phase == OPEN || phase == PRE_OPENING && open_elsewhere == 1;
            let expected = applies && to_the_letter(&quote);
            assert_eq!(inversion(&quote), expected, "{quote}");
            rejected += u64::from(expected);
        }
        assert!((100_000..400_000).contains(&rejected), "{rejected}");
    }
}
