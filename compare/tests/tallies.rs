//! Tallied checks of orders and of messages put to both implementations, one after the other, at
//! times with one tally for both: number, class, shape, pairings and the whole tally after each. At
//! the end of a list the tally is held to what the test counted by itself, from the answers of the
//! check without a tally.

use compare::{
    arrival::Answer,
    case::Arriving,
    generate::{arrival, message, one_of_each_number},
    limits::every_length,
    numbers::{self, kind, Kind, Of, BAD_TALLY},
    order,
    random::Random,
    run::Run,
    slices::{market, setting},
    tally::{self, Tallied, TalliedAnswer, Tally},
};
use std::collections::BTreeMap;

const LIMIT: u64 = 1_000_000;

const REFUSED: Answer = Answer::refusal(BAD_TALLY);

/// A list of tallied checks from some tally that adds up, and what was counted beside it.
struct List {
    start: Tally,
    tally: Tally,
    numbers: BTreeMap<u64, u64>,
    refused_by_12: u64,
}

impl List {
    fn from(start: Tally) -> Self {
        List {
            start,
            tally: start,
            numbers: BTreeMap::new(),
            refused_by_12: 0,
        }
    }

    /// One more check, held to the second implementation and to the check without a tally, whose
    /// answer is given.
    fn put<A: Arriving>(&mut self, run: &mut Run, arrival: A) -> Answer {
        let plain = arrival.library();
        let tally = self.tally;
        let answer = run.compare(&Tallied { arrival, tally });
        self.count(plain, answer);
        plain
    }

    fn count(&mut self, plain: Answer, answer: TalliedAnswer) {
        let counted: u64 = self.numbers.values().sum();
        if self.start.seen + counted < LIMIT {
            assert_eq!(answer.answer, plain);
            *self.numbers.entry(plain.number).or_default() += 1;
        } else {
            assert_eq!(answer.answer, REFUSED);
            self.refused_by_12 += 1;
        }
        self.tally = answer.tally;
    }

    /// Holds the tally to what was counted.
    fn finish(&self) {
        let given = |of: Kind| -> u64 {
            let numbers = self.numbers.iter();
            let numbers = numbers.filter(|(&number, _)| kind(number) == of);
            numbers.map(|(_, times)| times).sum()
        };
        let all: u64 = self.numbers.values().sum();
        let expected = Tally {
            seen: self.start.seen + all,
            refused: self.start.refused + given(Kind::Refused),
            accepted: self.start.accepted + given(Kind::Accepted),
            rejected: self.start.rejected + given(Kind::Rejected),
        };
        assert_eq!(self.tally, expected, "{:?}", self.numbers);
    }
}

/// Lists of up to 1,500 checks from a fresh tally, of orders, of messages, or of both.
#[test]
fn lists_from_a_fresh_tally() {
    let mut run = Run::new("tallied lists");
    let mut strays = 0;
    let mut lengths = 0;
    for round in 0..450 {
        let mut list = List::from(Tally::default());
        let length = run.random.index(1_501);
        for _ in 0..length {
            let is_message = [false, true, run.random.index(2) == 0][round % 3];
            strays += match is_message {
                true => put_made_up(&mut list, &mut run, message),
                false => put_made_up(&mut list, &mut run, arrival),
            };
        }
        list.finish();
        lengths += length;
    }
    run.report();
    println!("tallied lists: {strays} checks with a broken tally among {lengths}");
    run.require(&numbers::of(Of::Order), 100);
    run.require(&numbers::of(Of::Message), 100);
    assert_eq!(run.given(BAD_TALLY), strays);
    assert!(lengths > 225_000 && strays > 22_500);
}

/// One more check of something made up. Now and then there is one before it with a tally that is
/// broken, which is no part of the list; tells how many.
fn put_made_up<A: Arriving>(list: &mut List, run: &mut Run, make: fn(&mut Random) -> A) -> u64 {
    let arrival = make(&mut run.random);
    let stray = run.random.index(8) == 0;
    if stray {
        put_broken(run, &arrival, list.tally);
    }
    list.put(run, arrival);
    stray.into()
}

/// The same arrival with the list's own tally, but for one number of it.
fn put_broken<A: Arriving>(run: &mut Run, arrival: &A, tally: Tally) {
    let mut numbers = tally.numbers();
    let place = run.random.index(4);
    let by = *run.random.pick(&[1, 2, LIMIT, 1 << 32, 1 << 63, u64::MAX]);
    numbers[place] = numbers[place].wrapping_add(by);
    let tallied = Tallied {
        arrival: arrival.clone(),
        tally: Tally::of_numbers(numbers),
    };
    hold_broken(run, &tallied);
}

fn hold_broken<A: Arriving>(run: &mut Run, tallied: &Tallied<A>) {
    let expected = TalliedAnswer {
        answer: REFUSED,
        tally: tallied.tally,
    };
    assert_eq!(run.compare(tallied), expected, "{tallied}");
}

/// Lists that begin close to the limit and go on beyond it.
#[test]
fn lists_across_the_limit() {
    let mut run = Run::new("across the limit");
    for round in 0..1_000 {
        let seen = LIMIT - 10 + round % 11; // to the limit itself
        let mut list = List::from(adding_up(&mut run.random, seen));
        for _ in 0..10 {
            let (arrival, message) = (arrival(&mut run.random), message(&mut run.random));
            list.put(&mut run, arrival);
            list.put(&mut run, message);
        }
        list.finish();
        assert_eq!(list.tally.seen, LIMIT);
        assert_eq!(list.refused_by_12, 20 - (LIMIT - seen));
    }
    run.report();
    assert_eq!(run.comparisons, 20_000);
    assert!(run.given(BAD_TALLY) > 10_000 && run.given(0) > 1_000);
}

/// A tally that has seen so many, divided at random, at times among two kinds or one.
fn adding_up(random: &mut Random, seen: u64) -> Tally {
    let part = |random: &mut Random, whole: u64| match random.index(4) {
        0 => 0,
        1 => whole,
        _ if whole == u64::MAX => random.number(),
        _ => random.between(0, whole),
    };
    let one = part(random, seen);
    let other = part(random, seen - one);
    rotated(random, seen, [one, other, seen - one - other])
}

/// The three kinds in their places, from any of them on.
fn rotated(random: &mut Random, seen: u64, mut kinds: [u64; 3]) -> Tally {
    kinds.rotate_left(random.index(3));
    let [refused, accepted, rejected] = kinds;
    Tally {
        seen,
        refused,
        accepted,
        rejected,
    }
}

/// A sort of tally: whether 12 refuses it, and one of the sort.
type Sort = (&'static str, bool, fn(&mut Random) -> Tally);

const SORTS: [Sort; 20] = [
    ("fresh", false, |_| Tally::default()),
    ("adds up", false, |random| any_adding_up(random, 0)),
    ("one left", false, |random| adding_up(random, LIMIT - 1)),
    ("full", true, |random| adding_up(random, LIMIT)),
    ("above", true, |random| adding_up(random, LIMIT + 1)),
    ("huge", true, |random| {
        let seen = random.between(LIMIT, u64::MAX);
        adding_up(random, seen)
    }),
    ("largest", true, |random| adding_up(random, u64::MAX)),
    ("equal in 32 bits to a small one", true, |random| {
        let small = random.between(0, LIMIT - 1);
        adding_up(random, (1 << 32) + small)
    }),
    ("seen one too many", true, |random| {
        let mut tally = any_adding_up(random, 0);
        tally.seen += 1;
        tally
    }),
    ("seen one too few", true, |random| {
        let mut tally = any_adding_up(random, 1);
        tally.seen -= 1;
        tally
    }),
    ("a kind by one too many", true, |random| {
        let tally = any_adding_up(random, 0);
        with_kind_changed(random, tally, 1)
    }),
    ("a kind by 2^32 too many", true, |random| {
        let tally = any_adding_up(random, 0);
        with_kind_changed(random, tally, 1 << 32)
    }),
    ("two kinds by 2^63 too many", true, |random| {
        let mut tally = any_adding_up(random, 0);
        tally.refused += 1 << 63;
        tally.rejected += 1 << 63;
        tally
    }),
    ("right modulo 2^64", true, right_modulo_the_word),
    ("right modulo 2^64, around twice", true, |random| {
        let seen = random.between(0, LIMIT - 1);
        rotated(random, seen, [u64::MAX, u64::MAX, seen + 2])
    }),
    ("a kind left out of seen", true, |random| {
        let (tally, left_out) = (any_adding_up(random, 0), random.between(1, 1_000));
        with_kind_changed(random, tally, left_out)
    }),
    ("seen alone", true, |random| {
        Tally::of_numbers([random.between(1, LIMIT - 1), 0, 0, 0])
    }),
    ("all but seen", true, |random| Tally {
        seen: 0,
        ..any_adding_up(random, 1)
    }),
    ("any small numbers", true, |random| loop {
        let numbers = [0; 4].map(|_| random.between(0, 999_999));
        if numbers[0] != numbers[1] + numbers[2] + numbers[3] {
            return Tally::of_numbers(numbers);
        }
    }),
    ("any numbers", true, |random| {
        // Above a million at least: shifted by no more than 40.
        let seen = (random.number() | 1 << 63) >> random.index(41);
        let [refused, accepted, rejected] = [0; 3].map(|_| random.number() >> random.index(64));
        Tally::of_numbers([seen, refused, accepted, rejected])
    }),
];

/// Below the limit.
fn any_adding_up(random: &mut Random, least: u64) -> Tally {
    let most = *random.pick(&[3, 1_000, LIMIT - 1]);
    let seen = random.between(least, most);
    adding_up(random, seen)
}

fn with_kind_changed(random: &mut Random, tally: Tally, by: u64) -> Tally {
    let mut numbers = tally.numbers();
    numbers[1 + random.index(3)] += by;
    Tally::of_numbers(numbers)
}

/// The sum of the three kinds goes beyond the word, and what is left of it is right.
fn right_modulo_the_word(random: &mut Random) -> Tally {
    let seen = random.between(0, LIMIT - 1);
    let one = random.between(LIMIT, u64::MAX);
    let other = random.number() >> random.index(64);
    let last = seen.wrapping_sub(one).wrapping_sub(other);
    rotated(random, seen, [one, other, last])
}

/// Tallies of every sort, with orders and messages of every sort: 12 comes before all others.
#[test]
fn tallies_of_every_sort() {
    let mut run = Run::new("tallies");
    for _ in 0..5_000 {
        for sort in SORTS {
            put_sort(&mut run, sort, arrival);
            put_sort(&mut run, sort, message);
        }
    }
    run.report();
    let wrong = SORTS.iter().filter(|(_, wrong, _)| *wrong).count() as u64;
    assert_eq!(run.comparisons, 2 * 5_000 * SORTS.len() as u64);
    assert_eq!(run.given(BAD_TALLY), 2 * 5_000 * wrong);
}

fn put_sort<A: Arriving>(run: &mut Run, (name, wrong, tally): Sort, make: fn(&mut Random) -> A) {
    let tallied = Tallied {
        arrival: make(&mut run.random),
        tally: tally(&mut run.random),
    };
    if wrong {
        return hold_broken(run, &tallied);
    }
    let mut list = List::from(tallied.tally);
    list.put(run, tallied.arrival);
    list.finish();
    assert_eq!(list.refused_by_12, 0, "{name}");
}

/// Settings and market of any length, among refusals of every other sort.
#[test]
fn lengths_of_settings_and_market() {
    let mut run = Run::new("tallied lengths");
    for _ in 0..400 {
        let mut list = List::from(Tally::default());
        let mut arrival = arrival(&mut run.random);
        arrival.settings.resize(setting::LENGTH, 1);
        arrival.market.resize(market::LENGTH, 1);
        let number = order::check(&arrival).number;
        for (settings, market, number) in every_length(number) {
            let mut other = arrival.clone();
            other.settings.resize(settings, 1);
            other.market.resize(market, 1);
            put_broken(&mut run, &other, list.tally);
            assert_eq!(list.put(&mut run, other).number, number);
        }
        list.finish();
    }
    run.finish(&[9, 10, 12], 400 * 80 * 2);
}

/// One list of a million checks from a fresh tally, and beyond. The arrivals are few, so the second
/// implementation is asked for each of them once.
#[test]
fn one_list_to_the_limit() {
    const BEYOND: u64 = 1_000;
    let mut run = Run::new("to the limit");
    let pool = one_of_each_number(&mut run.random, Of::Order, arrival);
    let mut list = List::from(Tally::default());
    for _ in 0..LIMIT + BEYOND {
        let place = run.random.index(pool.len());
        let (arrival, plain) = &pool[place];
        let tallied = Tallied {
            arrival: arrival.clone(),
            tally: list.tally,
        };
        let expected = tally::add(list.tally, *plain);
        let answer = run.expect(&tallied, expected, "the second implementation");
        list.count(*plain, answer);
    }
    list.finish();
    run.report();
    println!("to the limit: {:?}", list.tally);
    assert_eq!((list.tally.seen, list.refused_by_12), (LIMIT, BEYOND));
    for number in numbers::of(Of::Order) {
        assert!(run.given(number) > 10_000, "number {number}");
    }
}
