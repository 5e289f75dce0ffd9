//! Every crossing quote in every small book.

use super::{bid, put_both_ways};
use compare::{limits::every, numbers::ACCEPTED, run::Run};

/// At each of five prices nothing, one contract or two; bids below, at and above each of them, the
/// away offer missing or anywhere, and sizes up to one more than can rest.
#[test]
fn every_small_book() {
    let mut run = Run::new("small books");
    for sizes in every::<5, u64>(&[0, 1, 2]) {
        let offers = (2..).zip(sizes).filter(|(_, size)| *size > 0);
        let offers: Vec<(u64, u64)> = offers.collect();
        for price in 1..=7 {
            for away in 0..=8 {
                for size in 1..=11 {
                    let mut crossing = bid(price, size, &offers);
                    crossing.away = away;
                    crossing.fills_length += (price + away + size) as usize % 3;
                    put_both_ways(&mut run, &crossing);
                }
            }
        }
    }
    run.finish(&[ACCEPTED], 243 * 7 * 9 * 11 * 2);
    assert_eq!(run.given(ACCEPTED), run.comparisons);
}

/// Sizes that end with each offer of the longest list, one contract before and one behind it: up to
/// there all are filled whole. Whatever is left over is booked or cancelled.
#[test]
fn every_end_in_the_longest_list() {
    let mut run = Run::new("ends");
    let offers: Vec<(u64, u64)> = (0..64)
        .map(|place| (1_000 + 3 * place, place % 5 + 2))
        .collect();
    let depth_to = |end: usize| offers[..end].iter().map(|(_, size)| size).sum::<u64>();
    for last in 0..=offers.len() {
        let depth = depth_to(last);
        for size in depth.max(2) - 1..=depth + 1 {
            for away in [0, 2_000, 1_500] {
                let mut crossing = bid(1_500, size, &offers);
                crossing.away = away;
                let answer = put_both_ways(&mut run, &crossing);
                let whole = last - usize::from(size < depth);
                let met = answer.fills.iter().zip(&offers);
                assert!(met.take(whole).all(|(fill, (_, size))| fill == size));
                let rest = size.saturating_sub(depth_to(offers.len()));
                let is_cancelled = away == 1_500;
                let expected = if is_cancelled { [0, rest] } else { [rest, 0] };
                assert_eq!([answer.booked, answer.cancelled], expected, "{crossing}");
            }
        }
    }
    run.finish(&[ACCEPTED], 64 * 3 * 3 * 2);
}

/// A list against every bid and every away offer around its prices, each next to the other: the last
/// price that is filled is decided by the lower of the two.
#[test]
fn every_last_price() {
    let mut run = Run::new("last prices");
    let offers = [
        (1_000, 3),
        (1_001, 1),
        (1_003, 2),
        (1_006, 4),
        (999_999_999, 5),
    ];
    let prices = [1, 998, 999].into_iter().chain(1_000..=1_008);
    let prices: Vec<u64> = prices.chain([999_999_998, 999_999_999]).collect();
    for &price in &prices {
        for &away in prices.iter().chain(&[0, 1_000_000_000]) {
            let mut crossing = bid(price, 1_000_000, &offers);
            crossing.away = away;
            let answer = put_both_ways(&mut run, &crossing);
            let last = if away == 0 { price } else { price.min(away) };
            let fills = offers.map(|(at, size)| if at <= last { size } else { 0 });
            assert_eq!(answer.fills, fills, "{crossing}");
        }
    }
    run.finish(&[ACCEPTED], 14 * 16 * 2);
}
