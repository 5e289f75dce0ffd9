//! The pairing of legs, by two methods that share nothing but the grouping.
//!
//! `by_contracts` is document 01 to the letter, with S-5's direction of the second walk: single
//! contracts are matched one at a time, from explicit lists of the open ones, and a run of matches
//! of the same two legs is one pairing.
//!
//! `by_levels` is the quick one, and keeps no open contracts at all. Think of a walk as a position
//! on a line, bought contracts a step up, sold ones a step down. A contract matches the one that
//! takes the same step back, and the latest open one always lies next. So of the legs that cross a
//! given step, in walked sequence, the first matches the second, the third the fourth, and so on,
//! and a last one without partner stays open. Steps between two neighbouring turning points are
//! crossed by the same legs and count together.

use crate::legs::{Leg, OptionType};
use std::{cmp::Reverse, collections::BTreeMap};

/// What the walks made of the legs, named by their places.
#[derive(Clone, Debug, Default, PartialEq, Eq)]
pub struct Paired {
    /// Which two legs, the one walked first in front, and how many contracts of them.
    pub pairs: BTreeMap<(usize, usize), i128>,
    pub pairings: u64,
    /// The signed contracts of each leg that no walk matched.
    pub left: Vec<i128>,
}

/// One walk over some legs in the sequence given, over the contracts left so far.
type Walk = fn(&[usize], &mut Paired);

pub fn by_contracts(legs: &[Leg], european: bool) -> Paired {
    both_walks(legs, european, walk_by_contracts)
}

pub fn by_levels(legs: &[Leg], european: bool) -> Paired {
    both_walks(legs, european, walk_by_levels)
}

fn both_walks(legs: &[Leg], european: bool, walk: Walk) -> Paired {
    let mut paired = Paired {
        left: legs.iter().map(|leg| leg.count).collect(),
        ..Paired::default()
    };
    for mut group in groups(legs, |leg| (leg.option_type, leg.expiry)) {
        group.sort_by_key(|&place| legs[place].strike);
        if legs[group[0]].option_type == OptionType::Put {
            group.reverse();
        }
        walk(&group, &mut paired);
    }
    if !european {
        for mut group in groups(legs, |leg| (leg.option_type, leg.strike)) {
            group.sort_by_key(|&place| Reverse(legs[place].expiry));
            walk(&group, &mut paired);
        }
    }
    paired
}

/// The places of the legs that agree in something, in lists of at least one.
fn groups<K: Ord>(legs: &[Leg], key: impl Fn(&Leg) -> K) -> Vec<Vec<usize>> {
    let mut groups: BTreeMap<K, Vec<usize>> = BTreeMap::new();
    for (place, leg) in legs.iter().enumerate() {
        groups.entry(key(leg)).or_default().push(place);
    }
    groups.into_values().collect()
}

fn walk_by_contracts(group: &[usize], paired: &mut Paired) {
    let mut open = [Vec::new(), Vec::new()]; // the leg of each open contract: bought, sold
    let mut matches: Vec<(usize, usize)> = Vec::new();
    for &reached in group {
        let side = usize::from(paired.left[reached] < 0);
        for _ in 0..paired.left[reached].abs() {
            match open[1 - side].pop() {
                Some(latest) => matches.push((latest, reached)),
                None => open[side].push(reached),
            }
        }
    }
    for &place in group {
        let [bought, sold] = [0, 1].map(|side: usize| {
            let still = open[side].iter().filter(|&&leg| leg == place);
            still.count() as i128
        });
        paired.left[place] = bought - sold;
    }
    for pair in &matches {
        *paired.pairs.entry(*pair).or_default() += 1;
    }
    matches.dedup();
    paired.pairings += matches.len() as u64;
}

fn walk_by_levels(group: &[usize], paired: &mut Paired) {
    let mut position = 0;
    let mut spans = Vec::with_capacity(group.len()); // the steps that each leg crosses
    let mut turns = vec![0];
    for &place in group {
        let next = position + paired.left[place];
        spans.push((place, position.min(next), position.max(next)));
        turns.push(next);
        position = next;
        paired.left[place] = 0;
    }
    turns.sort_unstable();
    turns.dedup();
    for steps in turns.windows(2) {
        let (low, high) = (steps[0], steps[1]);
        let crossing: Vec<usize> = spans
            .iter()
            .filter(|&&(_, bottom, top)| bottom <= low && high <= top)
            .map(|&(place, _, _)| place)
            .collect();
        for partners in crossing.chunks(2) {
            match *partners {
                [first, second] => {
                    *paired.pairs.entry((first, second)).or_default() += high - low;
                }
                // Every step above the start is first crossed upwards, every one below downwards.
                _ => paired.left[partners[0]] += (high - low) * if low >= 0 { 1 } else { -1 },
            }
        }
    }
    // No two legs meet in both walks: they would agree in type, strike and expiry.
    paired.pairings = paired.pairs.len() as u64;
}

#[cfg(test)]
mod tests {
    use super::*;
    use crate::{legs::samples::some_legs, random::Random};

    /// Both methods find the same pairs, of as many contracts, and leave the same.
    #[test]
    fn both_methods_agree() {
        let mut random = Random::new(1);
        let (mut pairings, mut several) = (0, 0);
        for _ in 0..100_000 {
            let legs = some_legs(&mut random);
            let european = random.index(4) == 0;
            let levels = by_levels(&legs, european);
            assert_eq!(levels, by_contracts(&legs, european), "{legs:?}");
            let matched: i128 = levels.pairs.values().sum();
            let left: i128 = levels.left.iter().map(|count| count.abs()).sum();
            let all: i128 = legs.iter().map(|leg| leg.count.abs()).sum();
            assert_eq!(all, left + 2 * matched, "{legs:?}");
            pairings += levels.pairings;
            several += u64::from(levels.pairings > 4);
        }
        assert!(
            pairings > 100_000 && several > 10_000,
            "{pairings} {several}"
        );
    }
}
