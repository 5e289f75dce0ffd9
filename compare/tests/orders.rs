//! Whole orders made up at random, valid and damaged, under settings and markets made up likewise:
//! number, class, shape and pairings of both implementations, that another sequence of the legs
//! changes nothing, and what shares change.

use compare::{
    arrival::{Answer, Arrival},
    generate::{arrival, shuffle},
    numbers::{self, kind, Kind, Of},
    random::Random,
    run::Run,
};
use std::collections::BTreeMap;

const COMPARISONS: u64 = 2_000_000;
const LEAST_OF_EACH: u64 = 1_000;

/// What orders with shares get, and what the same orders get without: no others may come up.
#[rustfmt::skip]
const WITH_SHARES_AND_WITHOUT: [(u64, u64); 35] = [
    // Shares change nothing.
    (0, 0), (1, 1), (3, 3), (4, 4), (5, 5), (6, 6), (7, 7), (8, 8), (9, 9), (10, 10), (22, 22),
    // There are too many: that comes after 1 to 7, and 8 here is the wrong sign.
    (33, 0), (33, 8), (33, 9), (33, 10),
    (33, 20), (33, 21), (33, 22), (33, 23), (33, 24), (33, 25),
    // One leg is complex with shares, so 8, 20, 21 and 25 do not touch it, and 22 may.
    (9, 8), (10, 8), (0, 8), (0, 20), (0, 21), (0, 25),
    (22, 0), (22, 8), (22, 20), (22, 21), (22, 25),
    // The shares are on the other side; 23 and 24 do not apply.
    (0, 22), (0, 23), (0, 24),
];

#[test]
fn both_give_the_same_answers() {
    let mut run = Run::new("orders");
    let mut rearranged = 0;
    let mut numbers = BTreeMap::new();
    while run.comparisons < COMPARISONS {
        let arrival = arrival(&mut run.random);
        let answer = run.compare(&arrival);
        if run.random.index(8) == 0 {
            if let Some(other) = in_another_sequence(&mut run.random, &arrival) {
                let other_answer = run.compare(&other);
                assert_eq!(answer, other_answer, "{arrival}\nrearranged\n{other}");
                rearranged += 1;
            }
        }
        if arrival.shares != 0 {
            let without = run.compare(&arrival.with_shares(0));
            assert_alike(&answer, &without, &arrival);
            let two = (answer.number, without.number);
            assert!(WITH_SHARES_AND_WITHOUT.contains(&two), "{two:?}: {arrival}");
            *numbers.entry(two).or_default() += 1;
        }
    }
    run.report();
    println!("orders: {rearranged} of them also in another sequence of legs");
    run.require(&numbers::of(Of::Order), LEAST_OF_EACH);
    assert!(rearranged >= COMPARISONS / 20);
    let what = "numbers with shares and without";
    run.require_just(
        what,
        &numbers,
        &WITH_SHARES_AND_WITHOUT,
        LEAST_OF_EACH / 200,
    );
}

/// Class, shape and pairings of an order are those of its options alone.
fn assert_alike(with: &Answer, without: &Answer, arrival: &Arrival) {
    let of_options = |answer: &Answer| (answer.class, answer.shape, answer.pairings);
    if [with, without].map(|answer| kind(answer.number) == Kind::Refused) == [false; 2] {
        assert_eq!(of_options(with), of_options(without), "{arrival}");
    }
}

/// The same legs in another sequence, where the slices are whole legs, two or more.
fn in_another_sequence(random: &mut Random, arrival: &Arrival) -> Option<Arrival> {
    let mut legs = arrival.legs();
    if legs.len() < 2 || arrival.with_legs(&legs) != *arrival {
        return None;
    }
    shuffle(random, &mut legs);
    Some(arrival.with_legs(&legs))
}
