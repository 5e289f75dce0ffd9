//! Pairs put to both implementations, beyond what a line of a case can say, or too many for lines:
//! orders of every number beside each other, with settings and market of every length; slices of
//! every length; every mark; the orders of `cases/*.desk` in pairs; and pairs made up at random.
//! Each is held to what document 02, S-2, says of the numbers that its orders get alone.

mod numbers;
mod random;

use compare::{
    arrival::Arrival,
    cases,
    limits::EXTREMES,
    numbers::{ACCEPTED, NOT_21_BYTES},
    pair::{Pair, PairAnswer},
    run::Run,
    series::call,
    unit,
};

const MARCH: u64 = 160_318;

/// No, and values for yes, some of which would be no if cut short.
const MARKS: [u64; 4] = [0, 1, 256, 1 << 32];

/// Whether the agency order gets 0, whether the contra order does, and whether the pair is marked
/// to continue unpaired; then which of the two pass.
const OUTCOMES: [([bool; 3], [u64; 2]); 8] = [
    // If both get 0, both pass,
    ([true, true, false], [1, 1]),
    ([true, true, true], [1, 1]),
    // else neither.
    ([true, false, false], [0, 0]),
    ([false, true, false], [0, 0]),
    ([false, true, true], [0, 0]),
    ([false, false, false], [0, 0]),
    ([false, false, true], [0, 0]),
    // But of a pair marked so, a failing contra order alone lets the agency order pass.
    ([true, false, true], [1, 0]),
];

/// The answer to a pair whose orders get some numbers alone.
fn answer([agency_number, contra_number]: [u64; 2], mark: u64) -> PairAnswer {
    let asked = [
        agency_number == ACCEPTED,
        contra_number == ACCEPTED,
        mark != 0,
    ];
    let outcome = OUTCOMES.iter().find(|(when, _)| *when == asked);
    let (_, [agency_passes, contra_passes]) = *outcome.expect("every case is there");
    PairAnswer {
        agency_number,
        contra_number,
        agency_passes,
        contra_passes,
    }
}

/// Puts two orders to both, the first as the agency order, with every mark, and holds the whole
/// answer.
fn hold(run: &mut Run, [agency, contra]: [&Arrival; 2], numbers: [u64; 2]) {
    for mark in MARKS {
        let pair = Pair::of(agency, contra, mark);
        assert_eq!(run.compare(&pair), answer(numbers, mark), "{pair}");
    }
}

/// The same, and with the second as the agency order.
fn hold_both_ways(run: &mut Run, [one, other]: [&Arrival; 2], [number, other_number]: [u64; 2]) {
    hold(run, [one, other], [number, other_number]);
    hold(run, [other, one], [other_number, number]);
}

/// So many calls bought at rising strikes, at a price that no check rejects.
fn calls(number: usize) -> Arrival {
    let legs = (1..=number).map(|place| call(MARCH, place as u64 * 1_000).leg(1));
    Arrival::limit(&legs.collect::<Vec<_>>(), 1_000)
}

/// One order of each kind: accepted, refused, rejected.
#[test]
fn marks() {
    let mut run = Run::new("marks");
    let rejected = Arrival::limit(&calls(2).legs(), 19);
    let orders = [(calls(2), 0), (calls(0), 3), (rejected, 22)];
    let few = [0, 3, 255, 256, (1 << 32) + 1];
    let bits = (0..64).map(|bit| 1 << bit);
    for mark in bits.chain(few).chain(EXTREMES) {
        for (agency, number) in &orders {
            for (contra, contra_number) in &orders {
                let pair = Pair::of(agency, contra, mark);
                let expected = answer([*number, *contra_number], mark);
                assert_eq!(run.compare(&pair), expected, "{pair}");
            }
        }
    }
    run.finish(&[], 9 * 73);
    run.require_of_pairs(&[0, 3, 22], 1);
}

/// Each of the four slices has a length of its own: right ones, and a byte more or less in one.
#[test]
fn lengths_of_slices() {
    let mut run = Run::new("lengths of pairs");
    let of_legs = |legs: usize| match legs {
        1..=16 => ACCEPTED,
        _ => 3,
    };
    for legs in 1..=18 {
        for beside in [0, 1, 2, 16, 17] {
            let (order, other, number) = (calls(legs), calls(beside), of_legs(beside));
            hold_both_ways(&mut run, [&order, &other], [of_legs(legs), number]);
            for broken in with_a_byte_more_or_less(&order) {
                hold_both_ways(&mut run, [&broken, &other], [NOT_21_BYTES, number]);
            }
        }
    }
    for legs in [255, 256, 257, 272, 65_537] {
        let mut many = calls(1);
        many.symbols = vec![0xff; legs * 21];
        many.counts = vec![0xff; legs * 8];
        for mark in MARKS {
            // The second implementation would look at every two of them.
            let contra = Pair::of(&calls(1), &many, mark);
            run.expect(&contra, answer([0, 3], mark), "the rule");
            let agency = Pair::of(&many, &calls(1), mark);
            run.expect(&agency, answer([3, 0], mark), "the rule");
        }
    }
    run.finish(&[], 2 * 4 * 18 * 5 * 5);
    run.require_of_pairs(&[0, 1, 3], 1);
}

fn with_a_byte_more_or_less(order: &Arrival) -> [Arrival; 4] {
    let changes: [fn(&mut Arrival); 4] = [
        |order| order.symbols.push(b'0'),
        |order| order.counts.push(0),
        |order| order.symbols.truncate(order.symbols.len() - 1),
        |order| order.counts.truncate(order.counts.len() - 1),
    ];
    changes.map(|change| {
        let mut broken = order.clone();
        change(&mut broken);
        broken
    })
}

/// Every order of the cases beside one that no check rejects, and beside the next of the cases,
/// both under its own settings and market.
#[test]
fn orders_of_cases() {
    let mut run = Run::new("cases as pairs");
    let orders = cases::all().orders;
    let next = orders.iter().cycle().skip(1);
    for (order, next) in orders.iter().zip(next) {
        for beside in [&calls(2), &next.case] {
            let beside = beside.under(&order.case.settings, &order.case.market);
            let numbers = [order.answer.number, unit::check_order(&beside).number];
            hold_both_ways(&mut run, [&order.case, &beside], numbers);
        }
    }
    run.finish(&[], 4 * 4 * 800);
    let numbers = [0, 3, 4, 5, 6, 7, 8, 9, 10, 20, 21, 22, 23, 24, 25, 33];
    run.require_of_pairs(&numbers, 1);
}
