//! Lists of every length, and every value at its limits and beyond them, at each place of a list.

use super::{bid, hold_number, put_both_ways, refusal, HIGH};
use compare::{
    crossing::Crossing,
    limits::EXTREMES,
    numbers::{ACCEPTED, BAD_CROSSING},
    run::Run,
};

/// The lengths of lists that are tried place by place.
const LENGTHS: [usize; 6] = [1, 2, 3, 16, 63, 64];

/// So many offers, which leave room below and above them, all met by a bid that takes them whole.
fn bid_for_all(length: usize) -> Crossing {
    let offers = (0..length as u64).map(|place| (1_000 + 10 * place, 1 + place % 7));
    bid(HIGH - 1, 1_000_000, &offers.collect::<Vec<_>>())
}

/// Each list of a length of its own, with so many numbers for the fills.
#[test]
fn every_length() {
    let mut run = Run::new("lengths of lists");
    let lengths = (0..=67_usize).chain([128, 255, 256, 257, 320, 65_537]);
    for length in lengths {
        let around = [
            0,
            1,
            length.saturating_sub(1),
            length,
            length + 1,
            length + 64,
            64,
        ];
        for sizes in around {
            for fills_length in around {
                let mut crossing = bid_for_all(length);
                crossing.sizes.resize(sizes, 1);
                crossing.fills_length = fills_length;
                let is_right = sizes == length && length <= 64 && length <= fills_length;
                let number = if is_right { ACCEPTED } else { BAD_CROSSING };
                hold_number(&mut run, &crossing, number);
            }
        }
    }
    run.finish(&[ACCEPTED, BAD_CROSSING], 74 * 49 * 2);
}

/// More numbers for the fills than there can be offers: each is set.
#[test]
fn every_number_of_fills_is_set() {
    let mut run = Run::new("numbers of fills");
    for length in [0, 1, 2, 63, 64] {
        for fills_length in (length..=200).chain([256, 4_096, 65_537]) {
            let mut crossing = bid_for_all(length);
            crossing.fills_length = fills_length;
            let answer = put_both_ways(&mut run, &crossing);
            assert_eq!(answer.fills[..length], crossing.sizes);
            crossing.away = HIGH + 1;
            let answer = put_both_ways(&mut run, &crossing);
            assert_eq!(answer, refusal(BAD_CROSSING, fills_length));
            crossing.quote.symbol.clear();
            let answer = put_both_ways(&mut run, &crossing);
            assert_eq!(answer, refusal(1, fills_length));
        }
    }
    run.finish(&[ACCEPTED, 1, BAD_CROSSING], 5 * 130 * 3 * 2);
}

/// Every bit alone, every high bit with a low one, and the numbers around a limit.
fn values(limit: u64) -> Vec<u64> {
    let few = [0, 1, 2, limit - 1, limit, limit + 1];
    let bits = (0..64).flat_map(|bit| [1 << bit, 1 << bit | 5]);
    few.into_iter().chain(bits).chain(EXTREMES).collect()
}

/// Whether a number is from 1 to the limit decides.
fn number_of(value: u64, limit: u64) -> u64 {
    if (1..=limit).contains(&value) {
        ACCEPTED
    } else {
        BAD_CROSSING
    }
}

#[test]
fn sizes() {
    const MOST: u64 = 1_000_000;
    let mut run = Run::new("sizes");
    for value in values(MOST) {
        let mut crossing = bid_for_all(0);
        crossing.size = value;
        hold_number(&mut run, &crossing, number_of(value, MOST));
        for length in LENGTHS {
            let mut crossing = bid_for_all(length);
            crossing.size = value;
            hold_number(&mut run, &crossing, number_of(value, MOST));
            for place in 0..length {
                let mut crossing = bid_for_all(length);
                crossing.sizes[place] = value;
                hold_number(&mut run, &crossing, number_of(value, MOST));
            }
        }
    }
    run.finish(&[ACCEPTED, BAD_CROSSING], 138 * 156 * 2);
}

/// At either end a price may be anything within the limits; between, it has to fit too.
#[test]
fn prices() {
    let mut run = Run::new("prices");
    for value in values(HIGH) {
        let mut away = bid_for_all(3);
        away.away = value;
        let number = if value == 0 {
            ACCEPTED
        } else {
            number_of(value, HIGH)
        };
        hold_number(&mut run, &away, number);
        for length in LENGTHS {
            for place in 0..length {
                let mut crossing = bid_for_all(length);
                crossing.prices[place] = value;
                let (before, behind) = crossing.prices.split_at(place);
                let fits = before.iter().all(|&price| price < value)
                    && behind[1..].iter().all(|&price| value < price);
                let number = if fits {
                    number_of(value, HIGH)
                } else {
                    BAD_CROSSING
                };
                hold_number(&mut run, &crossing, number);
            }
        }
    }
    run.finish(&[ACCEPTED, BAD_CROSSING], 138 * 150 * 2);
}

/// From lowest to highest, both among them, nothing else of the list being wrong.
#[test]
fn all_prices_and_sizes_at_their_limits() {
    let mut run = Run::new("both limits");
    let offers = [
        (1, 1_000_000),
        (2, 1),
        (HIGH - 1, 1_000_000),
        (HIGH, 1_000_000),
    ];
    for size in [1, 999_999, 1_000_000] {
        for price in [1, 2, HIGH - 1] {
            for away in [0, 1, 2, HIGH - 1, HIGH] {
                let mut crossing = bid(price, size, &offers);
                crossing.away = away;
                hold_number(&mut run, &crossing, ACCEPTED);
            }
        }
    }
    run.finish(&[ACCEPTED], 3 * 3 * 5 * 2);
}

/// At each place of a list a price that is the one before it, or one less, or one more; two
/// exchanged; and the list in the other sequence.
#[test]
fn sequences() {
    let mut run = Run::new("sequences");
    for length in LENGTHS {
        for place in 1..length {
            let right = bid_for_all(length);
            let before = right.prices[place - 1];
            let next = [before - 1, before, before + 1];
            for (price, number) in next.into_iter().zip([BAD_CROSSING, BAD_CROSSING, ACCEPTED]) {
                let mut crossing = right.clone();
                crossing.prices[place] = price;
                hold_number(&mut run, &crossing, number);
            }
            let mut exchanged = right;
            exchanged.prices.swap(place - 1, place);
            hold_number(&mut run, &exchanged, BAD_CROSSING);
        }
        let mut reversed = bid_for_all(length);
        reversed.prices.reverse();
        let number = if length == 1 { ACCEPTED } else { BAD_CROSSING };
        hold_number(&mut run, &reversed, number);
    }
    run.finish(&[ACCEPTED, BAD_CROSSING], 2 * (4 * 143 + 6));
}

/// Any value but 0 means a sell, whose list falls.
#[test]
fn every_value_for_a_sell() {
    let mut run = Run::new("values for a sell");
    for sell in values(HIGH) {
        let mut rising = bid_for_all(16);
        rising.sell = sell;
        let mut falling = rising.clone();
        falling.prices.reverse();
        let [of_rising, of_falling] = [&rising, &falling].map(|one| run.compare(one).number);
        let expected = if sell == 0 { [0, 36] } else { [36, 0] };
        assert_eq!([of_rising, of_falling], expected, "{rising}");
    }
    run.finish(&[ACCEPTED, BAD_CROSSING], 138 * 2);
}
