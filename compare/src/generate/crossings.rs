//! Crossing quotes: resting lists around the quote's own price, away prices at and next to it and to
//! those that rest, sizes that end with some offer or one contract beside it, and damage of every
//! kind. A list is made for a bid; that of an offer is the same one in the mirror.

use super::{quote, values::flag};
use crate::{
    crossing::{Crossing, MOST_RESTING, PRICES, SIZES},
    random::Random,
};

/// A price and its mirror image together: it turns the lowest price into the highest.
const MIRROR: u64 = *PRICES.start() + *PRICES.end();

/// The same price, seen by the other side; one outside the limits stays as it is.
pub fn mirrored(price: u64) -> u64 {
    if PRICES.contains(&price) {
        MIRROR - price
    } else {
        price
    }
}

/// A whole crossing quote, mostly without damage.
pub fn crossing(random: &mut Random) -> Crossing {
    let mut crossing = Crossing::new(quote(random), 0, &[]);
    crossing.sell = flag(random, 2);
    let own = crossing.own_price().clamp(*PRICES.start(), *PRICES.end());
    let seen = if crossing.is_sell() {
        mirrored
    } else {
        |price| price
    };
    let prices = prices(random, seen(own));
    let away = away(random, seen(own), &prices);
    crossing.away = seen(away);
    crossing.prices = prices.into_iter().map(seen).collect();
    rest(random, &mut crossing);
    while random.index(8) == 0 {
        damage(random, &mut crossing);
    }
    crossing
}

/// Rising prices, some of them better than a bid; now and then more of them than there may be.
fn prices(random: &mut Random, bid: u64) -> Vec<u64> {
    let length = match random.index(16) {
        0 => 0,
        1 => MOST_RESTING - 1,
        2 => MOST_RESTING,
        3 => random.index(MOST_RESTING) + 1,
        4 if random.index(8) == 0 => MOST_RESTING + 1 + random.index(2) * MOST_RESTING,
        _ => random.index(6) + 1,
    };
    let most_apart = *random.pick(&[1, 1, 2, 10, 1_000]);
    let (some, all) = (random.index(length + 2), length + 1);
    let better = *random.pick(&[some, some, all]) as u64;
    let first = bid.saturating_sub(better * most_apart);
    let mut price = (first + random.between(0, 1)).max(1);
    let mut prices = Vec::new();
    while prices.len() < length && PRICES.contains(&price) {
        prices.push(price);
        price += random.between(1, most_apart);
    }
    prices
}

fn away(random: &mut Random, bid: u64, prices: &[u64]) -> u64 {
    let from = match random.index(8) {
        0 | 1 => return 0,
        2 => *random.pick(&[*PRICES.start(), *PRICES.end()]),
        3 | 4 => bid,
        _ if prices.is_empty() => bid,
        _ => *random.pick(prices),
    };
    let near = *random.pick(&[from - 1, from, from, from + 1]);
    near.clamp(*PRICES.start(), *PRICES.end())
}

/// The sizes, the quote's with them, and so many numbers for the fills that the list has room.
fn rest(random: &mut Random, crossing: &mut Crossing) {
    let length = crossing.prices.len();
    let most = *random.pick(&[1, 10, 100, 20_000, 1_000_000]);
    let size = |random: &mut Random| match random.index(32) {
        0 => *random.pick(&[*SIZES.start(), *SIZES.end()]),
        _ => random.between(1, most),
    };
    crossing.sizes = (0..length).map(|_| size(random)).collect();
    let depth: u64 = crossing.sizes[..random.index(length + 1)].iter().sum();
    let near = *random.pick(&[depth.saturating_sub(1), depth, depth, depth + 1]);
    crossing.size = match random.index(8) {
        0 => random.between(1, 1_000_000),
        1 => *SIZES.end(),
        _ => near.clamp(*SIZES.start(), *SIZES.end()),
    };
    crossing.fills_length = match random.index(8) {
        0 => length + random.index(80),
        1 => length + 1,
        2 => length.max(MOST_RESTING),
        _ => length,
    };
}

/// Makes one thing wrong, or perhaps just unusual.
fn damage(random: &mut Random, crossing: &mut Crossing) {
    let length = crossing.prices.len().min(crossing.sizes.len());
    let place = match random.index(3) {
        0 => 0,
        1 => length.saturating_sub(1),
        _ => random.index(length.max(1)),
    };
    match random.index(9) {
        0 => crossing.size = wrong_number(random, *SIZES.end()),
        1 => crossing.away = wrong_number(random, *PRICES.end()),
        2 => crossing.fills_length = random.index(crossing.prices.len() + 1),
        3 => damage_length(random, &mut crossing.prices),
        4 => damage_length(random, &mut crossing.sizes),
        5 => crossing.prices.reverse(),
        6 if length > 0 => crossing.sizes[place] = wrong_number(random, *SIZES.end()),
        7 if length > 0 => crossing.prices[place] = wrong_number(random, *PRICES.end()),
        _ if length > 1 => {
            let other = crossing.prices[(place + 1) % length];
            let near = [other, other, other.wrapping_add(1), other.wrapping_sub(1)];
            crossing.prices[place] = *random.pick(&near);
        }
        _ => crossing.sell = u64::from(!crossing.is_sell()),
    }
}

fn damage_length(random: &mut Random, numbers: &mut Vec<u64>) {
    match random.index(2) {
        0 => numbers.truncate(numbers.len().saturating_sub(1)),
        _ => numbers.push(numbers.last().map_or(1, |last| last.wrapping_add(1))),
    }
}

/// Around the limits, or far beyond them; some would be within if cut short.
fn wrong_number(random: &mut Random, most: u64) -> u64 {
    let any = random.number();
    let (word, sign) = ((1 << 32) + 1, (1 << 63) + 1);
    *random.pick(&[0, 1, most, most + 1, word, sign, u64::MAX, any])
}
