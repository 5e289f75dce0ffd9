//! Legs of a valid order, and unit counts.

use crate::Parts;

#[derive(Clone, Copy, Debug, PartialEq, Eq, PartialOrd, Ord)]
pub enum OptionType {
    Call,
    Put,
}

/// Year, month, day: they compare as dates do.
pub type Expiry = (u64, u64, u64);

/// A leg of a valid order, without the root that all legs share.
#[derive(Clone, Copy, Debug, PartialEq, Eq)]
pub struct Leg {
    pub option_type: OptionType,
    pub expiry: Expiry,
    pub strike: i128,
    /// Positive to buy, negative to sell.
    pub count: i128,
}

impl Leg {
    pub fn of_parts(parts: &Parts, count: i128) -> Self {
        Leg {
            option_type: match parts.option_type == u64::from(b'C') {
                true => OptionType::Call,
                false => OptionType::Put,
            },
            expiry: (parts.year, parts.month, parts.day),
            strike: i128::from(parts.strike),
            count,
        }
    }
}

/// The same legs with unit counts.
pub fn units(legs: &[Leg]) -> Vec<Leg> {
    let divisor = greatest_common_divisor(legs);
    let unit = |leg: &Leg| Leg {
        count: leg.count / divisor,
        ..*leg
    };
    legs.iter().map(unit).collect()
}

/// By trial: it divides the smallest count, and divisors come in twos whose product is that count.
fn greatest_common_divisor(legs: &[Leg]) -> i128 {
    // Counts are at most 10,000, so 64 bits hold them, and divide faster.
    let sizes: Vec<u64> = legs
        .iter()
        .map(|leg| leg.count.unsigned_abs() as u64)
        .collect();
    let smallest = *sizes.iter().min().expect("an order has a leg");
    (1..)
        .take_while(|small| small * small <= smallest)
        .filter(|&small| smallest.is_multiple_of(small))
        .flat_map(|small| [small, smallest / small])
        .filter(|&divisor| sizes.iter().all(|size| size.is_multiple_of(divisor)))
        .max()
        .expect("one divides every count")
        .into()
}

#[cfg(test)]
pub mod samples {
    use super::*;
    use crate::random::Random;

    /// Different series, few strikes and expiries, counts of up to 6.
    pub fn some_legs(random: &mut Random) -> Vec<Leg> {
        let mut legs: Vec<Leg> = Vec::new();
        for _ in 0..=random.index(32) {
            let leg = Leg {
                option_type: *random.pick(&[OptionType::Call, OptionType::Put]),
                expiry: (2016, random.between(1, 3), 1),
                strike: random.between(1, 4).into(),
                count: i128::from(random.between(1, 6)) * *random.pick(&[1, -1]),
            };
            let series = |leg: &Leg| (leg.option_type, leg.expiry, leg.strike);
            if legs.iter().all(|other| series(other) != series(&leg)) {
                legs.push(leg);
            }
        }
        legs
    }
}
