//! What the tests of orders, of messages, of pairs and of quotes share: values that are cut short
//! easily, every choice of faults and of values, and slices of every length.

use crate::{
    numbers::{first, ACCEPTED, BAD_MARKET, BAD_SETTING},
    slices::{market, setting},
};

/// Values that a number cut short would take for others, and the largest.
pub const EXTREMES: [u64; 4] = [1 << 32, 1 << 63, u64::MAX - 1, u64::MAX];

/// A number, and what makes a case get it.
pub type Fault<C> = (u64, fn(&mut C));

/// The case with any of the faults, made from the last to the first, and the number of the first of
/// them, 0 without any. The faults stand in the sequence in which numbers are given.
pub fn faults_together<C: Clone>(case: &C, faults: &[Fault<C>]) -> Vec<(C, u64)> {
    let with_faults = |chosen: u32| {
        let (mut case, mut first) = (case.clone(), 0);
        for (place, (number, make)) in faults.iter().enumerate().rev() {
            if chosen >> place & 1 == 1 {
                make(&mut case);
                first = *number;
            }
        }
        (case, first)
    };
    (0..1 << faults.len()).map(with_faults).collect()
}

/// Lengths of a slice that should have another: none, one too few, one too many, twice.
pub fn wrong_lengths(right: usize) -> [usize; 4] {
    [0, right - 1, right + 1, 2 * right]
}

/// Right lengths of settings and market, and every wrong one up to twice the right one and a byte's
/// range above it; with the number of a case that gets some number with right ones.
pub fn every_length(number: u64) -> Vec<(usize, usize, u64)> {
    let right = [setting::LENGTH, market::LENGTH];
    let [settings, market] = right.map(|right| {
        let wrong = (0..right).chain(right + 1..=2 * right);
        wrong.chain([right + 256]).collect::<Vec<usize>>()
    });
    let mut lengths = vec![(setting::LENGTH, market::LENGTH)];
    lengths.extend(settings.iter().map(|&length| (length, market::LENGTH)));
    lengths.extend(market.iter().map(|&length| (setting::LENGTH, length)));
    lengths.extend(settings.into_iter().zip(market));
    let with_number = |(settings, market)| {
        let numbers = [
            (number, number != ACCEPTED),
            (BAD_SETTING, settings != setting::LENGTH),
            (BAD_MARKET, market != market::LENGTH),
        ];
        (settings, market, first(&numbers).unwrap_or(ACCEPTED))
    };
    lengths.into_iter().map(with_number).collect()
}

/// Every row of so many of the values, the first place changing fastest.
pub fn every<const N: usize, T: Copy>(values: &[T]) -> impl Iterator<Item = [T; N]> + '_ {
    (0..values.len().pow(N as u32)).map(|mut code| {
        [(); N].map(|()| {
            let value = values[code % values.len()];
            code /= values.len();
            value
        })
    })
}
