//! Orders beyond what a line of a case can say, or too many for lines: slices of every length, every
//! bit of a count and of the shares, every byte of a symbol, faults together, and markets of small
//! prices. Each case names its number, where it is one that the rules give, so both implementations
//! are held to the rules and not only to each other.

use compare::{
    arrival::{Answer, Arrival, RawLeg},
    checks::distance,
    limits::{every, every_length, faults_together, Fault},
    run::Run,
    series::{call, put},
    slices::{market::*, setting::*, EXAMPLE_SETTINGS},
};

const MARCH: u64 = 160_318;

/// Puts an arrival to both, and holds the number.
fn hold(run: &mut Run, arrival: &Arrival, number: u64) {
    let answer = run.compare(arrival);
    assert_eq!(
        answer.number,
        number,
        "{} at {}\n{arrival}",
        arrival.legs_as_text(),
        arrival.price
    );
}

/// A sale of one call, which no check but 25 looks at.
fn sale() -> Arrival {
    Arrival::limit(&[call(MARCH, 20_000).leg(-1)], -1_000)
}

/// A purchase of one call, which 20 to 25 leave alone while the market's values are missing.
fn purchase() -> Arrival {
    Arrival::limit(&[call(MARCH, 20_000).leg(1)], 1_000)
}

/// An undetermined order without shape, which no check looks at.
fn undetermined() -> Arrival {
    let legs = [
        call(MARCH, 10_000).leg(1),
        call(MARCH, 20_000).leg(-2),
        put(MARCH, 15_000).leg(1),
    ];
    Arrival::limit(&legs, 8_000)
}

/// A sale of one call beside shares bought, at a price that would be wrong without them.
fn covered_sale() -> Arrival {
    Arrival::limit(&[call(MARCH, 20_000).leg(-1)], 1_000).with_shares(100)
}

/// So many calls bought at rising strikes, at a price that no check rejects.
fn calls(number: usize) -> Arrival {
    let legs = (1..=number).map(|place| call(MARCH, place as u64 * 1_000).leg(1));
    Arrival::limit(&legs.collect::<Vec<_>>(), 1_000)
}

#[test]
fn lengths_of_slices() {
    let mut run = Run::new("lengths");
    for legs in 0..=18 {
        for symbols in lengths_around(legs * 21, 21) {
            for counts in lengths_around(legs * 8, 8) {
                let mut arrival = calls(legs + 1);
                arrival.symbols.truncate(symbols);
                arrival.counts.truncate(counts);
                let whole = counts % 8 == 0 && counts / 8 * 21 == symbols;
                let number = match counts / 8 {
                    _ if !whole => 1,
                    1..=16 => 0,
                    _ => 3,
                };
                hold(&mut run, &arrival, number);
            }
        }
    }
    // Above 16 legs: 3, whatever they hold.
    for legs in [17, 18, 20, 32, 255, 256, 257, 272, 65_537] {
        let mut arrival = calls(1);
        arrival.symbols = vec![0xff; legs * 21];
        arrival.counts = vec![0xff; legs * 8];
        // The second implementation would look at every two of them.
        run.expect(&arrival, Answer::refusal(3), "the rule");
        arrival.symbols.push(0);
        run.expect(&arrival, Answer::refusal(1), "the rule");
    }
    run.finish(&[0, 1, 3], 800);
}

/// A length, one leg more and less, and a byte more and less than each.
fn lengths_around(length: usize, leg: usize) -> Vec<usize> {
    let changes = [0, 1, leg - 1, leg];
    let above = changes.iter().map(|change| length + change);
    let below = changes
        .iter()
        .filter_map(|change| length.checked_sub(*change));
    let mut all: Vec<usize> = above.chain(below).collect();
    all.sort_unstable();
    all.dedup();
    all
}

/// Every bit alone, every high bit with one in the low bits, and the numbers around a limit, all
/// with both signs.
fn signed_numbers(limit: i64) -> Vec<i64> {
    let mut numbers = vec![0, limit - 1, limit, limit + 1];
    numbers.extend([i64::MAX, i64::MIN, i64::MIN + 1]);
    numbers.extend((0..64).map(|bit| 1_i64 << bit));
    numbers.extend((14..63).map(|bit| (1_i64 << bit) + 1));
    numbers.extend(numbers.clone().iter().map(|number| number.wrapping_neg()));
    numbers
}

#[test]
fn counts() {
    let mut run = Run::new("counts");
    for count in signed_numbers(10_000) {
        let number = match count {
            1..=10_000 | -10_000..=-1 => 0,
            _ => 5,
        };
        let simple = Arrival::limit(&[call(MARCH, 20_000).leg(count)], count.signum() * 1_000);
        hold(&mut run, &simple, number);
        for place in 0..3 {
            let mut arrival = undetermined();
            arrival.settings[CHECK_20..=CHECK_26].fill(0);
            arrival.counts[place * 8..place * 8 + 8].copy_from_slice(&count.to_le_bytes());
            hold(&mut run, &arrival, number);
        }
    }
    run.finish(&[0, 5], 900);
}

/// No check rejects these orders, with shares or without.
#[test]
fn shares() {
    let mut run = Run::new("shares");
    for shares in signed_numbers(1_000_000) {
        let number = match shares {
            -1_000_000..=1_000_000 => 0,
            _ => 33,
        };
        for order in [sale(), purchase(), undetermined(), calls(16)] {
            hold(&mut run, &order.with_shares(shares), number);
        }
    }
    run.finish(&[0, 33], 4 * 240);
}

/// Every byte at every place of an order with a short root, and of one with the longest.
#[test]
fn symbols() {
    let mut run = Run::new("symbols of legs");
    for root in ["XYZ   ", "ABCDEF"] {
        let mut order = undetermined();
        order.settings[CHECK_20..=CHECK_26].fill(0);
        for symbol in order.symbols.chunks_mut(21) {
            symbol[..6].copy_from_slice(root.as_bytes());
        }
        for place in 0..order.symbols.len() {
            for byte in 0..=u8::MAX {
                let mut arrival = order.clone();
                arrival.symbols[place] = byte;
                run.compare(&arrival);
            }
        }
    }
    run.finish(&[0, 4, 6, 7], 2 * 63 * 256);
}

/// Roots of one byte six times, in one leg, in two, or in all three.
#[test]
fn roots_of_one_byte() {
    let mut run = Run::new("roots of one byte");
    let mut order = undetermined();
    order.settings[CHECK_20..=CHECK_26].fill(0);
    for byte in 0..=u8::MAX {
        for legs in 1..8 {
            let mut arrival = order.clone();
            for leg in (0..3).filter(|leg| legs >> leg & 1 == 1) {
                arrival.symbols[21 * leg..21 * leg + 6].fill(byte);
            }
            let number = match (byte, legs) {
                (b'A'..=b'Z', 7) => 0,
                (b'A'..=b'Z', _) => 7,
                _ => 4,
            };
            hold(&mut run, &arrival, number);
        }
    }
    run.finish(&[0, 4, 7], 7 * 256);
}

/// Faults that can be made one on top of the other, the first first.
fn faults() -> [Fault<Arrival>; 10] {
    [
        (1, |arrival| arrival.symbols.push(b' ')),
        (3, |arrival| {
            for place in 0..16 {
                append(arrival, call(MARCH, 50_000 + place).leg(1));
            }
        }),
        (4, |arrival| append(arrival, call(0, 30_000).leg(1))),
        (5, |arrival| {
            append(arrival, call(MARCH, 31_000).leg(10_001))
        }),
        (6, |arrival| {
            append(arrival, put(MARCH, 32_000).leg(1));
            append(arrival, put(MARCH, 32_000).leg(-1));
        }),
        (7, |arrival| {
            let mut series = put(MARCH, 33_000);
            series.root = "XYZ7";
            append(arrival, series.leg(1));
        }),
        (8, |arrival| arrival.price = -1_000_000_000_001),
        (33, |arrival| arrival.shares = -1_000_001),
        (9, |arrival| arrival.settings[PERCENTAGE] = 10_001),
        (10, |arrival| arrival.market[PHASE] = 3),
    ]
}

fn append(arrival: &mut Arrival, leg: RawLeg) {
    let one = Arrival::limit(&[leg], 0);
    // In front, so that a byte too many stays at the end.
    arrival.symbols = [one.symbols, arrival.symbols.clone()].concat();
    arrival.counts = [one.counts, arrival.counts.clone()].concat();
}

/// Any faults together, and settings and market of any length: the first number is given.
#[test]
fn first_number_first() {
    let mut run = Run::new("faults together");
    let orders = [undetermined(), covered_sale()];
    let together = orders.map(|order| faults_together(&order, &faults()));
    for (arrival, number) in together.into_iter().flatten() {
        for (settings, market, number) in every_length(number) {
            let mut arrival = arrival.clone();
            arrival.settings.resize(settings, 1);
            arrival.market.resize(market, 1);
            hold(&mut run, &arrival, number);
        }
    }
    run.finish(&[0, 1, 3, 4, 5, 6, 7, 8, 9, 10, 33], 2 * 80 * 1_024);
}

/// Every market over a few values around the limit of a band, at every price next to a limit that one
/// of them could draw. Each band has a distance of its own, and there are two ticks.
#[test]
fn every_small_market() {
    let mut run = Run::new("25 on small markets");
    let mut settings = EXAMPLE_SETTINGS.to_vec();
    settings[TICK_BELOW_3000..=TICK_FROM_3000].copy_from_slice(&[11, 13]);
    settings[ATD_BELOW_1000..=ATD_FROM_10000].copy_from_slice(&[2, 3, 5, 7]);
    for limit in [1_000, 3_000, 10_000] {
        let references = [limit - 1, limit, limit + 1];
        let limits = references.map(|reference| {
            let (reference, distance) = (reference as i64, distance(&settings, reference.into()));
            [reference - distance as i64, reference + distance as i64]
        });
        let values = [&[0], &references[..]].concat();
        for prices in every::<5, u64>(&values) {
            for (phase, open_elsewhere) in [(0, 0), (0, 1), (1, 0), (2, 0)] {
                for (order, side) in [(purchase(), 1), (sale(), -1)] {
                    let mut arrival = order;
                    arrival.settings = settings.clone();
                    arrival.market = [&[phase, open_elsewhere, 0, 0], &prices[..]].concat();
                    for amount in limits.iter().flatten() {
                        for change in [-1, 0, 1] {
                            arrival.price = (amount + change) * side;
                            run.compare(&arrival);
                        }
                    }
                }
            }
        }
    }
    run.finish(&[0, 25], 3 * 1_024 * 4 * 2 * 18);
    assert!(run.given(0).min(run.given(25)) > 30_000);
}
