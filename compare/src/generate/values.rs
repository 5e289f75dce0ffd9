//! Settings, markets, shares and prices, often at their limits and at those that checks draw.

use super::{side, Draft};
use crate::{
    checks,
    random::Random,
    slices::{market::*, setting::*, EXAMPLE_MARKET, EXAMPLE_SETTINGS},
};

/// Yes more seldom than no, and any number that means yes.
pub fn flag(random: &mut Random, one_in: usize) -> u64 {
    match random.index(one_in) {
        0 => *random.pick(&[1, 1, 1, 2, 1 << 32, u64::MAX]),
        _ => 0,
    }
}

/// Settings within their limits.
pub fn settings(random: &mut Random) -> Vec<u64> {
    let mut settings = EXAMPLE_SETTINGS.to_vec();
    settings[EUROPEAN_INDEX] = flag(random, 4);
    if random.index(4) == 0 {
        return settings;
    }
    if random.index(2) == 0 {
        let off = |random: &mut Random| u64::from(random.index(4) != 0);
        settings[CHECK_20..=CHECK_26].fill_with(|| off(random) * flag(random, 8).max(1));
    }
    let increment = |random: &mut Random| pick_or(random, &[1, 5, 10, 50, 100, 999, 1_000], 1_000);
    settings[TICK_BELOW_3000] = increment(random);
    settings[TICK_FROM_3000] = increment(random);
    settings[NET_INCREMENT] = increment(random);
    let distance = |random: &mut Random| pick_or(random, &[2, 3, 5, 10, 1_000], 1_000);
    settings[ATD_BELOW_1000..=ATD_FROM_10000].fill_with(|| distance(random).max(2));
    settings[PERCENTAGE] = pick_or(random, &[0, 1, 300, 500, 9_999, 10_000], 10_000);
    let presets = [0, 1, 50, 600, 999_999, 1_000_000];
    let (one, other) = (
        pick_or(random, &presets, 1_000_000),
        pick_or(random, &presets, 5_000),
    );
    settings[PRESET_MINIMUM] = one.min(other);
    settings[PRESET_MAXIMUM] = one.max(other);
    settings[SET_TICKS] = pick_or(random, &[0, 1, 4, 1_000], 1_000);
    settings[ADJUSTED] = flag(random, 8);
    settings
}

fn pick_or(random: &mut Random, likely: &[u64], most: u64) -> u64 {
    match random.index(4) {
        0 => random.between(1, most),
        _ => *random.pick(likely),
    }
}

/// A market within its limits, its prices close to each other and often around a band's limit.
pub fn market(random: &mut Random, draft: &Draft) -> Vec<u64> {
    let level = match random.index(10) {
        0 => random.between(1, 1_000_000_000),
        1 => 1_000_000_000,
        2 | 3 => random.between(1, 20_000),
        4 => random.between(1, 60),
        _ => *random.pick(&[1_000, 3_000, 10_000]),
    };
    let strike = draft.first().map_or(1, |(series, _)| series.strike);
    let underlying = match random.index(5) {
        0 => 0,
        1 => strike,
        2 => near(random, level),
        _ => random.between(1, 200_000),
    };
    let mut market = EXAMPLE_MARKET.to_vec();
    market[PHASE] = *random.pick(&[PRE_OPENING, PRE_OPENING, OPEN, OPEN, OPEN, HALT]);
    market[OPEN_ELSEWHERE] = flag(random, 2);
    market[EXTENDED_HOURS] = flag(random, 8);
    market[UNDERLYING] = underlying;
    market[NBB..=PREVIOUS_CLOSE].fill_with(|| market_price(random, level));
    market
}

fn market_price(random: &mut Random, level: u64) -> u64 {
    match random.index(4) {
        0 => 0,
        _ => near(random, level),
    }
}

fn near(random: &mut Random, level: u64) -> u64 {
    let by = *random.pick(&[0, 0, 1, 1, 2, 10, 50, 200]);
    let value = match random.index(2) {
        0 => level + by,
        _ => level.saturating_sub(by),
    };
    value.min(1_000_000_000)
}

/// Mostly none, otherwise few or any, or about as many as there may be; more often of the first
/// leg's side than of the other.
pub fn shares(random: &mut Random, draft: &Draft) -> i64 {
    let size = match random.index(12) {
        0 => *random.pick(&[999_999, 1_000_000, 1_000_001]),
        1 => random.between(1, 1_000_000) as i64,
        2 | 3 => *random.pick(&[1, 2, 100, 1_000]),
        _ => return 0,
    };
    let side = draft.first().map_or(1, |(_, count)| count.signum());
    size * *random.pick(&[side, side, -side])
}

/// A price at or next to a limit that some check draws for this order, or any.
pub fn price(
    random: &mut Random,
    draft: &Draft,
    shares: i64,
    settings: &[u64],
    market: &[u64],
) -> i64 {
    let size = match random.index(12) {
        0 => random.between(0, 30_000) as i128,
        1 => *random.pick(&[0, 1, 2, 1_000_000_000_000]),
        _ => *random.pick(&limits(draft, shares, settings, market)),
    };
    let size = size + *random.pick(&[-1, 0, 0, 1]);
    let size = size.clamp(-1_000_000_000_000, 1_000_000_000_000) as i64;
    match draft[..] {
        // Simple orders pay to buy: mostly so, that they come to the checks.
        [(_, count)] if shares == 0 && random.index(32) != 0 => size.abs().max(1) * count.signum(),
        _ => size * side(random),
    }
}

/// The limits that checks draw for an order, whichever of them apply: with shares also those that
/// would be drawn without.
fn limits(draft: &Draft, shares: i64, settings: &[u64], market: &[u64]) -> Vec<i128> {
    let mut limits = vec![0];
    if let [(series, _)] = draft[..] {
        limits.push(series.strike.into());
        limits.push(market[UNDERLYING].into());
        for reference in market[NBB..=PREVIOUS_CLOSE].iter().copied().map(i128::from) {
            let distance = checks::distance(settings, reference);
            limits.extend([reference + distance, reference - distance, reference]);
        }
        if shares == 0 {
            return limits;
        }
    }
    let units = draft.iter().map(|(_, count)| i128::from(count.abs()));
    let smallest = units.clone().min().unwrap_or(1).max(1);
    let sum: i128 = units.map(|size| size / smallest).sum(); // mostly the unit counts
    limits.extend([sum * i128::from(settings[NET_INCREMENT]); 4]);
    let mut strikes: Vec<i128> = draft.iter().map(|(s, _)| s.strike.into()).collect();
    strikes.sort_unstable();
    strikes.dedup();
    for two in strikes.windows(2).take(3) {
        let maximum = two[1] - two[0];
        let most = maximum + checks::allowance(settings, maximum);
        limits.extend([most, most, maximum, most / 2]);
    }
    limits
}
