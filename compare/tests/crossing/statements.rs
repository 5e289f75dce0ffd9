//! What document 02, S-7, says of every answer, statement by statement. Together these leave one
//! answer to each crossing quote whose list is within its limits.

use compare::{
    crossing::{Crossing, CrossingAnswer},
    numbers::{kind, Kind, ACCEPTED, BAD_CROSSING},
    unit,
};

pub fn hold(crossing: &Crossing, answer: &CrossingAnswer) {
    assert_eq!(answer.fills.len(), crossing.fills_length);
    hold_quote(crossing, answer);
    if answer.number == ACCEPTED {
        hold_sums(crossing, answer);
        hold_fills(crossing, answer);
        hold_rest(crossing, answer);
    } else {
        let CrossingAnswer {
            executed,
            booked,
            cancelled,
            ref fills,
            ..
        } = *answer;
        assert_eq!([executed, booked, cancelled], [0; 3], "{crossing}");
        assert!(fills.iter().all(|&fill| fill == 0), "{crossing}");
    }
}

/// Number and flag are the quote check's own, unless 36 takes the place of an acceptance or of a
/// rejection.
fn hold_quote(crossing: &Crossing, answer: &CrossingAnswer) {
    let quote = unit::check_quote(&crossing.quote);
    if answer.number == BAD_CROSSING {
        assert_ne!(kind(quote.number), Kind::Refused, "{crossing}");
        assert_eq!(answer.cancel, 0, "{crossing}");
    } else {
        let own = (answer.number, answer.cancel);
        assert_eq!(own, (quote.number, quote.cancel), "{crossing}");
    }
}

fn hold_sums(crossing: &Crossing, answer: &CrossingAnswer) {
    let sum: u64 = answer.fills.iter().sum();
    assert_eq!(answer.executed, sum, "{crossing}");
    let all = answer.executed + answer.booked + answer.cancelled;
    assert_eq!(all, crossing.size, "{crossing}");
}

/// Whether one price may be traded at: not above the bid, nor above the away offer where there is
/// one. A sell mirrors this.
pub fn is_allowed(crossing: &Crossing, price: u64) -> bool {
    let Crossing { away, .. } = *crossing;
    if crossing.is_sell() {
        price >= crossing.quote.offer && (away == 0 || price >= away)
    } else {
        price <= crossing.quote.bid && (away == 0 || price <= away)
    }
}

/// No fill is larger than its offer or at a price that is not allowed, and every better offer is
/// filled whole; beyond the list nothing is filled. Where something is left over, every offer at an
/// allowed price is filled whole.
fn hold_fills(crossing: &Crossing, answer: &CrossingAnswer) {
    let is_left_over = answer.booked + answer.cancelled > 0;
    let mut are_better_whole = true;
    let resting = crossing.prices.iter().zip(&crossing.sizes);
    for ((&price, &size), &fill) in resting.zip(&answer.fills) {
        assert!(fill <= size, "{crossing}");
        let is_allowed = is_allowed(crossing, price);
        assert!(fill == 0 || is_allowed && are_better_whole, "{crossing}");
        let is_whole = fill == size;
        assert!(!is_left_over || !is_allowed || is_whole, "{crossing}");
        are_better_whole &= is_whole;
    }
    let beyond = &answer.fills[crossing.prices.len()..];
    assert!(beyond.iter().all(|&fill| fill == 0), "{crossing}");
}

/// Booked if the bid is below the away offer or none is there, else cancelled. A sell mirrors this.
fn hold_rest(crossing: &Crossing, answer: &CrossingAnswer) {
    let Crossing { away, .. } = *crossing;
    let is_before_away = if crossing.is_sell() {
        crossing.quote.offer > away
    } else {
        crossing.quote.bid < away
    };
    if away == 0 || is_before_away {
        assert_eq!(answer.cancelled, 0, "{crossing}");
    } else {
        assert_eq!(answer.booked, 0, "{crossing}");
    }
}
