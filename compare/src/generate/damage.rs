//! Damage of every kind.

use super::legs::ROOTS;
use crate::{
    arrival::Arrival,
    limits::wrong_lengths,
    random::Random,
    slices::{market, setting},
};

/// Makes one thing wrong, or perhaps just unusual.
pub fn damage(random: &mut Random, arrival: &mut Arrival) {
    let legs = arrival.counts.len() / 8;
    match random.index(13) {
        0 => damage_lengths(random, arrival),
        1 | 2 if !arrival.symbols.is_empty() => {
            let place = random.index(arrival.symbols.len());
            arrival.symbols[place] = *random.pick(b" AZCPXacz0123459+-/:@[");
        }
        3 if legs > 0 => {
            const WRONG: [i64; 8] = [0, 10_001, -10_001, i64::MIN, i64::MAX, 1 << 32, -1 << 32, 7];
            let count = random.pick(&WRONG).to_le_bytes();
            let start = random.index(legs) * 8;
            arrival.counts[start..start + 8].copy_from_slice(&count);
        }
        4 | 5 if arrival.symbols.len() >= 42 => {
            let length = *random.pick(&[21, 21, 6, 12, 13]); // whole symbols, or their first parts
            let symbols = arrival.symbols.len() / 21;
            let (from, to) = (random.index(symbols) * 21, random.index(symbols) * 21);
            arrival.symbols.copy_within(from..from + length, to);
        }
        6 if arrival.symbols.len() >= 21 => {
            let start = random.index(arrival.symbols.len() / 21) * 21;
            let root = format!("{:<6}", random.pick(&ROOTS));
            arrival.symbols[start..start + 6].copy_from_slice(root.as_bytes());
        }
        7 => {
            const TOO_LARGE: i64 = 1_000_000_000_001;
            let turned = arrival.price.wrapping_neg();
            arrival.price = *random.pick(&[TOO_LARGE, -TOO_LARGE, i64::MAX, i64::MIN, 0, turned]);
        }
        8 => {
            // Too many, some of which would be few or none if cut short.
            const WRONG: [i64; 8] = [
                1_000_001,
                -1_000_001,
                i64::MAX,
                i64::MIN,
                i64::MIN + 100,
                1 << 32,
                (1 << 32) + 100,
                100 - (1 << 32),
            ];
            let (wrong, turned) = (*random.pick(&WRONG), arrival.shares.wrapping_neg());
            arrival.shares = *random.pick(&[wrong, wrong, 100, -100, turned, 0]);
        }
        9 | 10 => damage_settings(random, &mut arrival.settings),
        _ => damage_market(random, &mut arrival.market),
    }
}

fn damage_lengths(random: &mut Random, arrival: &mut Arrival) {
    let by = *random.pick(&[1, 1, 7, 8, 13, 20, 21, 22]);
    let slice = match random.index(2) {
        0 => &mut arrival.symbols,
        _ => &mut arrival.counts,
    };
    match random.index(2) {
        0 => slice.truncate(slice.len().saturating_sub(by)),
        _ => slice.extend(random.bytes(by)),
    }
}

pub fn damage_settings(random: &mut Random, settings: &mut Vec<u64>) {
    let limited = setting::SET_TICKS - setting::TICK_BELOW_3000 + 1;
    let place = setting::TICK_BELOW_3000 + random.index(limited);
    let value = *random.pick(&[0, 1, 2, 1_000, 1_001, 10_001, 1_000_001, u64::MAX]);
    damage_numbers(random, settings, setting::LENGTH, (place, value));
}

pub fn damage_market(random: &mut Random, market: &mut Vec<u64>) {
    let place = random.index(market::LENGTH);
    let value = *random.pick(&[0, 1, 2, 3, 1_000_000_000, 1_000_000_001, u64::MAX]);
    damage_numbers(random, market, market::LENGTH, (place, value));
}

/// Puts a value at a place, or gives the slice another length, with the value at what is new.
fn damage_numbers(random: &mut Random, numbers: &mut Vec<u64>, right: usize, at: (usize, u64)) {
    let (place, value) = at;
    match numbers.get_mut(place) {
        Some(number) if random.index(4) != 0 => *number = value,
        _ => numbers.resize(*random.pick(&wrong_lengths(right)), value),
    }
}
