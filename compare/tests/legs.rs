//! Lists of legs: number, class, shape and pairings of both implementations, on random lists of 0
//! to 20 legs, and on every small list over a few series, with shares and without. Where there are
//! few contracts, the second implementation's answer is also found contract by contract.

use compare::{
    arrival::{Answer, Arrival, RawLeg},
    generate::{damage, draft, legs_of, list_of},
    limits::every,
    order,
    random::Random,
    run::Run,
    series::{call, put},
    slices::setting::*,
};

const RANDOM_LISTS: u64 = 1_000_000;
const LEAST_OF_EACH: u64 = 1_000;
/// Contract by contract, the work grows with the contracts: not more than so many.
const FEW_CONTRACTS: i64 = 1_500;

#[test]
fn random_lists() {
    let mut run = Run::new("random legs");
    let mut by_contracts = 0;
    let mut lengths = [0; 21];
    while run.comparisons < RANDOM_LISTS {
        let legs = random_legs(&mut run.random);
        lengths[legs.len()] += 1;
        let arrival = random_arrival(&mut run.random, &legs);
        let answer = run.compare(&arrival);
        let contracts: i64 = legs.iter().map(|leg| leg.1.abs()).sum();
        if contracts <= FEW_CONTRACTS {
            assert_eq!(answer, order::check_by_contracts(&arrival), "{arrival}");
            by_contracts += 1;
        }
    }
    run.report();
    println!("random legs: {by_contracts} also contract by contract; by length {lengths:?}");
    let numbers = [0, 1, 3, 4, 5, 6, 7, 8, 22, 23, 24, 33];
    run.require(&numbers, LEAST_OF_EACH);
    assert!(by_contracts >= RANDOM_LISTS / 4);
    assert!(lengths.iter().all(|&times| times >= RANDOM_LISTS / 100));
}

fn random_legs(random: &mut Random) -> Vec<RawLeg> {
    let number = random.index(21);
    legs_of(&match random.index(2) {
        0 => list_of(random, number),
        _ => draft(random, number.min(16)),
    })
}

fn random_arrival(random: &mut Random, legs: &[RawLeg]) -> Arrival {
    let price = *random.pick(&[-20_000, -1_000, -1, 0, 1, 1_000, 20_000]);
    let mut arrival = Arrival::limit(legs, price);
    arrival.settings[EUROPEAN_INDEX] = u64::from(random.index(3) == 0);
    if random.index(2) == 0 {
        arrival.settings[CHECK_20..=CHECK_26].fill(0);
    }
    if random.index(4) == 0 {
        arrival.shares = *random.pick(&[-1_000_000, -1, 1, 1_000_000]);
    }
    if random.index(8) == 0 {
        damage(random, &mut arrival);
    }
    arrival
}

/// Two types, two expiries, three strikes at equal steps.
fn symbols() -> Vec<[u8; 21]> {
    let mut symbols = Vec::new();
    for series in [call, put] {
        for expiry in [160_318, 160_617] {
            for strike in [10_000, 15_000, 20_000] {
                symbols.push(series(expiry, strike).symbol());
            }
        }
    }
    symbols
}

/// Every symbol with every count.
fn alphabet(counts: &[i64]) -> Vec<RawLeg> {
    let with_counts = |symbol| counts.iter().map(move |&count| (symbol, count));
    symbols().into_iter().flat_map(with_counts).collect()
}

/// Puts a list of legs to both: as it is, European, and with shares.
fn compare(run: &mut Run, legs: &[RawLeg]) {
    let arrival = Arrival::limit(legs, -1_000);
    let mut european = arrival.clone();
    european.settings[EUROPEAN_INDEX] = 1;
    for arrival in [&arrival, &european, &arrival.with_shares(1)] {
        let expected: Answer = order::check_by_contracts(arrival);
        run.expect(arrival, expected, "contract by contract");
    }
}

/// Every sequence of none to three legs, counts -2 to 2, duplicates and zeros included.
#[test]
fn every_three_legs() {
    let mut run = Run::new("three legs");
    let all = alphabet(&[-2, -1, 0, 1, 2]);
    compare(&mut run, &[]);
    for &one in &all {
        compare(&mut run, &[one]);
        for &two in &all {
            compare(&mut run, &[one, two]);
            for &three in &all {
                compare(&mut run, &[one, two, three]);
            }
        }
    }
    let comparisons = 3 * (1 + 60 + 60 * 60 + 60 * 60 * 60);
    run.finish(&[0, 3, 5, 6, 8, 22, 23], comparisons);
    assert_eq!(run.comparisons, comparisons);
}

/// Every four legs, duplicates included, counts -2 to 2 without zero, in one sequence of each.
#[test]
fn every_four_legs() {
    let mut run = Run::new("four legs");
    let all = alphabet(&[-2, -1, 1, 2]);
    for (i, &one) in all.iter().enumerate() {
        for (j, &two) in all.iter().enumerate().skip(i) {
            for (k, &three) in all.iter().enumerate().skip(j) {
                for &four in &all[k..] {
                    compare(&mut run, &[three, one, four, two]);
                }
            }
        }
    }
    let comparisons = 3 * (48 * 49 * 50 * 51 / 24);
    run.finish(&[0, 6, 22, 23], comparisons);
    assert_eq!(run.comparisons, comparisons);
}

/// Six series of one type, each absent or with a count of -2 to 2: rows of strikes, equal and
/// unequal steps, rows of expiries, and both.
#[test]
fn every_six_series_of_one_type() {
    const EXPIRIES: [u64; 6] = [151_218, 160_115, 160_318, 160_319, 160_617, 170_120];
    let grids: [(&[u64], &[u64]); 5] = [
        (
            &[160_318],
            &[10_000, 15_000, 20_000, 21_000, 22_000, 24_000],
        ),
        (&[160_318, 160_617], &[10_000, 15_000, 20_000]),
        (&[160_318, 160_617], &[10_000, 15_000, 20_001]),
        (&[151_218, 160_115, 170_101], &[10_000, 15_000]),
        (&EXPIRIES, &[10_000]),
    ];
    let mut run = Run::new("six series");
    for (expiries, strikes) in grids {
        for one_type in [call, put] {
            let series = expiries
                .iter()
                .flat_map(|&expiry| strikes.iter().map(move |&strike| one_type(expiry, strike)));
            let symbols: Vec<[u8; 21]> = series.map(|series| series.symbol()).collect();
            // Not in a sequence that a walk could take.
            every_count(&mut run, [3, 0, 5, 1, 4, 2].map(|place| symbols[place]));
        }
    }
    let comparisons = 5 * 2 * 3 * 5_u64.pow(6);
    run.finish(&[0, 3, 8, 22, 23], comparisons);
    assert_eq!(run.comparisons, comparisons);
}

/// Each symbol with each count of -2 to 2; zero leaves the leg out.
fn every_count(run: &mut Run, symbols: [[u8; 21]; 6]) {
    for counts in every::<6, i64>(&[-2, -1, 0, 1, 2]) {
        let legs = symbols.into_iter().zip(counts);
        let legs: Vec<RawLeg> = legs.filter(|leg| leg.1 != 0).collect();
        compare(run, &legs);
    }
}
