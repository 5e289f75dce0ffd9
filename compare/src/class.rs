//! The class: which of the two series of a pair is the dearer one, and whether all agree.

use crate::{
    legs::{Leg, OptionType},
    pairing::Paired,
    shape::Shape,
};

pub const UNDETERMINED: u64 = 0;
pub const DEBIT: u64 = 1;
pub const CREDIT: u64 = 2;

pub fn of(legs: &[Leg], shape: &Shape, paired: &Paired) -> u64 {
    if let Some(class) = of_butterfly(shape) {
        return class;
    }
    let pairs = paired.pairs.keys();
    let pairs = pairs.map(|&(first, second)| of_pair(&legs[first], &legs[second]));
    let loners = paired.left.iter().filter(|&&count| count != 0);
    let loners = loners.map(|&count| if count > 0 { DEBIT } else { CREDIT });
    let all: Vec<u64> = pairs.chain(loners).collect();
    match () {
        () if all.iter().all(|&class| class == DEBIT) => DEBIT,
        () if all.iter().all(|&class| class == CREDIT) => CREDIT,
        () => UNDETERMINED,
    }
}

/// The class of a butterfly that leans so that it has one of its own.
fn of_butterfly(shape: &Shape) -> Option<u64> {
    let Shape::Butterfly {
        option_type,
        low,
        middle,
        high,
        middle_sold,
    } = *shape
    else {
        return None;
    };
    let lean = middle * 2 - (low + high);
    let own = match option_type {
        OptionType::Call => lean >= 0,
        OptionType::Put => lean <= 0,
    };
    own.then_some(if middle_sold { DEBIT } else { CREDIT })
}

fn of_pair(one: &Leg, other: &Leg) -> u64 {
    let bought_is_dearer = if one.count > 0 {
        dearer(one, other)
    } else {
        dearer(other, one)
    };
    if bought_is_dearer {
        DEBIT
    } else {
        CREDIT
    }
}

/// Whether the first of two series that differ in strike or in expiry alone is the dearer one.
fn dearer(this: &Leg, that: &Leg) -> bool {
    match (this.expiry == that.expiry, this.option_type) {
        (true, OptionType::Call) => this.strike < that.strike,
        (true, OptionType::Put) => this.strike > that.strike,
        (false, _) => this.expiry > that.expiry,
    }
}

#[cfg(test)]
mod tests {
    use super::*;
    use crate::{legs::samples::some_legs, pairing::by_levels, random::Random};

    /// Without walks over expiries and without butterflies, a debit is an order that is worth zero
    /// or more whatever the premiums, as long as the dearer series is not the cheaper one. The most
    /// extreme premiums are one for the dearest series of a type and expiry, down to some strike,
    /// and zero for all others: so all sums from the dearest series on must be zero or more.
    #[test]
    fn sums_from_the_dearest_series_give_the_class() {
        let dearer = |leg: &Leg, last: &Leg| {
            let same = (leg.option_type, leg.expiry) == (last.option_type, last.expiry);
            same && match last.option_type {
                OptionType::Call => leg.strike <= last.strike,
                OptionType::Put => leg.strike >= last.strike,
            }
        };
        hold_sums(Random::new(2), true, |_| true, dearer);
    }

    /// The same of legs of one strike with walks over expiries: the farthest is the dearest, and
    /// by S-5 the walk begins there.
    #[test]
    fn sums_from_the_farthest_expiry_give_the_class() {
        let dearer = |leg: &Leg, last: &Leg| {
            leg.option_type == last.option_type && leg.expiry >= last.expiry
        };
        hold_sums(Random::new(3), false, |leg| leg.strike == 1, dearer);
    }

    /// Holds the class of some of the legs to the sums of each leg with all that are dearer.
    fn hold_sums(
        mut random: Random,
        european: bool,
        is_kept: impl Fn(&Leg) -> bool,
        is_dearer: impl Fn(&Leg, &Leg) -> bool,
    ) {
        let mut seen = [0; 3];
        for _ in 0..100_000 {
            let mut legs = some_legs(&mut random);
            legs.retain(|leg| is_kept(leg));
            let sum_down_to = |last: &Leg| {
                let counted = legs.iter().filter(|leg| is_dearer(leg, last));
                counted.map(|leg| leg.count).sum()
            };
            let sums: Vec<i128> = legs.iter().map(sum_down_to).collect();
            let expected = match () {
                () if sums.iter().all(|&sum| sum >= 0) => DEBIT,
                () if sums.iter().all(|&sum| sum <= 0) => CREDIT,
                () => UNDETERMINED,
            };
            let class = of(&legs, &Shape::Other, &by_levels(&legs, european));
            assert_eq!(class, expected, "{legs:?}");
            seen[class as usize] += 1;
        }
        assert!(seen.iter().all(|&times| times > 4_000), "{seen:?}");
    }
}
