//! Legs: few strikes and expiries, so that legs meet, in the known shapes or nearly so.

use super::{shuffle, side, Draft};
use crate::{random::Random, series::Series};

pub const ROOTS: [&str; 6] = ["XYZ", "A", "SPXW", "ABCDEF", "Z9", "BRKB7"];

/// Neighbours by day, by month and by year, and dates whose parts compare in different directions.
const EXPIRIES: [u64; 12] = [
    160_318, 160_319, 160_418, 170_318, 150_420, 160_131, 991_231, 101, 240_229, 170_101, 161_231,
    160_218,
];

/// What the legs of one order are drawn from.
struct Pool {
    root: &'static str,
    expiries: Vec<u64>,
    strikes: Vec<u64>,
}

impl Pool {
    fn new(random: &mut Random) -> Self {
        let first = random.index(EXPIRIES.len());
        let number = 1 + random.index(4);
        let at = |place: usize| EXPIRIES[(first + place) % EXPIRIES.len()];
        Pool {
            root: ROOTS[random.index(ROOTS.len())],
            expiries: (0..number).map(at).collect(),
            strikes: strikes(random),
        }
    }

    fn series(&self, option_type: char, expiry: u64, strike: u64) -> Series {
        Series {
            root: self.root,
            expiry,
            option_type,
            strike,
        }
    }

    fn any(&self, random: &mut Random) -> Series {
        let option_type = *random.pick(&['C', 'P']);
        let (expiry, strike) = (*random.pick(&self.expiries), *random.pick(&self.strikes));
        self.series(option_type, expiry, strike)
    }

    /// So many different series, in any sequence; fewer if there are not so many.
    fn some(&self, random: &mut Random, number: usize) -> Vec<Series> {
        let mut all = Vec::new();
        for option_type in ['C', 'P'] {
            for &expiry in &self.expiries {
                for &strike in &self.strikes {
                    all.push(self.series(option_type, expiry, strike));
                }
            }
        }
        shuffle(random, &mut all);
        all.truncate(number);
        all
    }
}

/// Three to six rising strikes, mostly at equal steps, so that butterflies are often true.
fn strikes(random: &mut Random) -> Vec<u64> {
    let step = *random.pick(&[1, 500, 1_000, 2_500, 5_000, 12_345]);
    let number = random.between(3, 6);
    let base = match random.index(8) {
        0 => 1,
        1 => 99_999_999 - step * (number - 1),
        2 => random.between(1, 90_000_000),
        _ => step * random.between(1, 40),
    };
    let mut strikes: Vec<u64> = (0..number).map(|place| base + place * step).collect();
    if step > 1 && random.index(4) == 0 {
        let place = random.index(strikes.len() - 1);
        strikes[place] += 1; // a skew by the least amount
    }
    strikes
}

/// The legs of an order, valid unless the pool is too small: simple ones, known shapes, shapes
/// with one thing changed, and lists of up to `most` legs.
pub fn draft(random: &mut Random, most: usize) -> Draft {
    let pool = Pool::new(random);
    let mut draft = match random.index(16) {
        0..=3 => vec![(pool.any(random), side(random))],
        4 | 5 => vertical(random, &pool),
        6 | 7 => butterfly(random, &pool),
        8 | 9 => box_spread(random, &pool),
        10 => calendar(random, &pool),
        11 => chain(random, &pool, most),
        _ => list(random, &pool, most),
    };
    if draft.len() > 1 && random.index(5) == 0 {
        change_one(random, &pool, &mut draft);
    }
    scale(random, &mut draft);
    shuffle(random, &mut draft);
    draft
}

/// A list of exactly so many legs, series twice only where the pool is too small.
pub fn list_of(random: &mut Random, number: usize) -> Draft {
    let pool = Pool::new(random);
    let mut draft = list(random, &pool, number);
    let mut series = pool.some(random, number);
    draft.truncate(number);
    while draft.len() < number {
        let series = series.pop().unwrap_or_else(|| pool.any(random));
        if draft.iter().all(|(other, _)| *other != series) || random.index(50) == 0 {
            draft.push((series, random.between(1, 3) as i64 * side(random)));
        } else if draft.len() >= pool.strikes.len() * pool.expiries.len() * 2 {
            let strike = random.between(1, 99_999_999);
            draft.push((Series { strike, ..series }, side(random)));
        }
    }
    scale(random, &mut draft);
    shuffle(random, &mut draft);
    draft
}

fn vertical(random: &mut Random, pool: &Pool) -> Draft {
    let (series, side) = (pool.any(random), side(random));
    let other = *random.pick(&pool.strikes);
    let strike = if other == series.strike {
        other + 1
    } else {
        other
    };
    vec![(series, side), (Series { strike, ..series }, -side)]
}

fn butterfly(random: &mut Random, pool: &Pool) -> Draft {
    let (series, side) = (pool.any(random), side(random));
    let first = random.index(pool.strikes.len() - 2);
    let mut strikes = [first, first + 1, first + 2];
    if random.index(4) == 0 {
        strikes[2] = pool.strikes.len() - 1; // perhaps skewed
    }
    if random.index(4) == 0 {
        strikes[0] = 0;
    }
    let counts = [side, -2 * side, side];
    let at = |place: usize| Series {
        strike: pool.strikes[strikes[place]],
        ..series
    };
    (0..3).map(|place| (at(place), counts[place])).collect()
}

fn box_spread(random: &mut Random, pool: &Pool) -> Draft {
    let (expiry, side) = (*random.pick(&pool.expiries), side(random));
    let low = random.index(pool.strikes.len() - 1);
    let high = low + 1 + random.index(pool.strikes.len() - low - 1);
    let (low, high) = (pool.strikes[low], pool.strikes[high]);
    vec![
        (pool.series('C', expiry, low), side),
        (pool.series('P', expiry, low), -side),
        (pool.series('C', expiry, high), -side),
        (pool.series('P', expiry, high), side),
    ]
}

/// Two to four legs at one strike.
fn calendar(random: &mut Random, pool: &Pool) -> Draft {
    let series = pool.any(random);
    let expiries = EXPIRIES.iter().cycle().skip(random.index(EXPIRIES.len()));
    let number = 2 + random.index(3);
    let expiries = expiries.take(number);
    let mut leg = |&expiry| {
        let count = random.between(1, 2) as i64 * side(random);
        (Series { expiry, ..series }, count)
    };
    expiries.map(&mut leg).collect()
}

/// A row of strikes or of expiries in which nearly every leg meets another: each leaves contracts
/// open for the next, or one leg is as large as all others together.
fn chain(random: &mut Random, pool: &Pool, most: usize) -> Draft {
    let number = random.between(2, most.max(2) as u64);
    let (series, side) = (pool.any(random), side(random));
    let step = *random.pick(&[1, 500]);
    let lowest = series.strike.min(90_000_000);
    let by_strike = random.index(2) == 0;
    let one_large = random.index(2) == 0;
    let leg = |place: u64| {
        let (expiry, strike) = match by_strike {
            true => (series.expiry, lowest + place * step),
            false => (160_301 + place, series.strike),
        };
        let count = match (one_large, place) {
            (true, 0) => -(number as i64 - 1),
            (false, place) if place % 2 == 0 => -2,
            (false, place) if place + 1 < number => 2,
            _ => 1,
        };
        let series = Series {
            expiry,
            strike,
            ..series
        };
        (series, count * side)
    };
    (0..number).map(leg).collect()
}

/// Two legs or more, of one type or expiry more often than not, on both sides or on one.
fn list(random: &mut Random, pool: &Pool, most: usize) -> Draft {
    let number = random.between(2, most.max(2) as u64) as usize;
    let mut series = pool.some(random, number);
    match random.index(6) {
        0 => series.iter_mut().for_each(|one| one.option_type = 'C'),
        1 => series.iter_mut().for_each(|one| one.option_type = 'P'),
        2 => series
            .iter_mut()
            .for_each(|one| one.expiry = pool.expiries[0]),
        _ => (),
    }
    // What was made equal is kept once; a leg that is missing is no harm.
    let mut once: Vec<Series> = Vec::new();
    for one in series {
        if !once.contains(&one) {
            once.push(one);
        }
    }
    let largest = *random.pick(&[1, 1, 2, 3, 7, 100, 10_000]);
    let one_sided = random.index(5) == 0;
    let first_side = side(random);
    let mut leg = |series| {
        let side = if one_sided { first_side } else { side(random) };
        (series, random.between(1, largest) as i64 * side)
    };
    once.into_iter().map(&mut leg).collect()
}

/// Makes a shape one that it nearly is.
fn change_one(random: &mut Random, pool: &Pool, draft: &mut Draft) {
    let place = random.index(draft.len());
    let (series, count) = &mut draft[place];
    match random.index(6) {
        0 => series.option_type = if series.option_type == 'C' { 'P' } else { 'C' },
        1 => series.expiry = *random.pick(&EXPIRIES),
        2 => series.strike = *random.pick(&pool.strikes),
        3 => series.strike = series.strike % 99_999_999 + 1,
        4 => *count = -*count,
        _ => *count = (*count * 2).clamp(-10_000, 10_000),
    }
}

/// Multiplies all counts alike, as far as the largest may go.
fn scale(random: &mut Random, draft: &mut Draft) {
    let largest = draft.iter().map(|(_, count)| count.abs()).max();
    let most = 10_000 / largest.unwrap_or(1);
    let factor = match random.index(4) {
        0 => most,
        1 => random.between(1, most as u64) as i64,
        _ => 1,
    };
    draft.iter_mut().for_each(|(_, count)| *count *= factor);
}
