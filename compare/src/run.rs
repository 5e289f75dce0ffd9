//! One run of comparisons: puts the same case to both implementations, stops at the first
//! difference with a line that runs it again, and counts what was answered.

use crate::{
    case::Case,
    limits::wrong_lengths,
    random::{self, Random, SEED_VARIABLE},
    slices::{market, setting},
};
use std::{collections::BTreeMap, fmt::Debug};

/// The environment variable that holds one case as a line of text, for the test `replay`.
pub const CASE_VARIABLE: &str = "COMPARE_CASE";

pub type Counts = BTreeMap<u64, u64>;

/// How often each value was answered.
#[derive(Default)]
pub struct Seen {
    pub numbers: Counts,
    pub classes: Counts,
    pub shapes: Counts,
    pub pairings: Counts,
    /// Of pairs `numbers` has the agency orders'. How many orders of a pair pass tells which do.
    pub contra_numbers: Counts,
    pub passing: Counts,
    pub cancels: Counts,
    /// Wrong lengths alone.
    pub settings: Counts,
    pub market: Counts,
}

impl Seen {
    pub fn count_lengths(&mut self, settings: &[u64], market: &[u64]) {
        if settings.len() != setting::LENGTH {
            *self.settings.entry(settings.len() as u64).or_default() += 1;
        }
        if market.len() != market::LENGTH {
            *self.market.entry(market.len() as u64).or_default() += 1;
        }
    }
}

pub struct Run {
    name: &'static str,
    seed: u64,
    pub random: Random,
    pub comparisons: u64,
    seen: Seen,
}

impl Run {
    pub fn new(name: &'static str) -> Self {
        let seed = random::seed();
        Run {
            name,
            seed,
            random: Random::new(seed),
            comparisons: 0,
            seen: Seen::default(),
        }
    }

    /// Puts a case to both.
    pub fn compare<C: Case>(&mut self, case: &C) -> C::Answer {
        self.expect(case, case.second(), "the second implementation")
    }

    /// Holds the library to an answer that was found in some way. What it was lent to read must be
    /// as it was.
    pub fn expect<C: Case>(&mut self, case: &C, expected: C::Answer, found_by: &str) -> C::Answer {
        let lent = case.clone();
        let answer = lent.library();
        assert!(lent == *case, "the library changed {case}\n to {lent}");
        if answer != expected {
            self.difference(case, answer, expected, found_by);
        }
        self.comparisons += 1;
        case.count(&answer, &mut self.seen);
        answer
    }

    fn difference<C: Case>(
        &self,
        case: &C,
        answer: C::Answer,
        expected: C::Answer,
        found_by: &str,
    ) -> ! {
        panic!(
            "{}: a difference after {} comparisons, {SEED_VARIABLE}={}
  the library: {answer:?}
  {found_by}: {expected:?}
{}
to run it again, in compare/:
{CASE_VARIABLE}='{case}' cargo test --release --test replay -- --nocapture",
            self.name,
            self.comparisons,
            self.seed,
            case.described(),
        );
    }

    /// How often a number was given.
    pub fn given(&self, number: u64) -> u64 {
        self.seen.numbers.get(&number).copied().unwrap_or(0)
    }

    /// Prints what was answered.
    pub fn report(&self) {
        let (name, seed) = (self.name, self.seed);
        println!(
            "{name}: {} comparisons, {SEED_VARIABLE}={seed}",
            self.comparisons
        );
        for (what, counts) in [
            ("number", &self.seen.numbers),
            ("class", &self.seen.classes),
            ("shape", &self.seen.shapes),
            ("pairings", &self.seen.pairings),
            ("contra", &self.seen.contra_numbers),
            ("passing", &self.seen.passing),
            ("cancel", &self.seen.cancels),
        ] {
            for (value, times) in counts {
                println!("{name}: {what:>8} {value:>2} {times:>9} times");
            }
        }
    }

    /// Ends a test: prints what was answered, and fails unless each of some numbers was given and so
    /// many comparisons were made.
    pub fn finish(&self, numbers: &[u64], comparisons: u64) {
        self.report();
        self.given_each("number", &self.seen.numbers, numbers.iter().copied(), 1);
        assert!(self.comparisons >= comparisons, "{}", self.comparisons);
    }

    /// Fails unless each of some numbers, every class and every shape were given at least so often,
    /// and every number of pairings that 16 legs can make a tenth of that, as often as settings and
    /// market of each wrong length were lent: a run that tries nothing must not pass.
    pub fn require(&self, numbers: &[u64], least: u64) {
        let seen = &self.seen;
        self.given_each("number", &seen.numbers, numbers.iter().copied(), least);
        self.require_classes_and_shapes(least);
        self.given_each("pairings", &seen.pairings, 0..=15, least / 10);
        self.lent_each(least / 10);
    }

    /// Fails unless every class and every shape were given at least so often.
    pub fn require_classes_and_shapes(&self, least: u64) {
        self.given_each("class", &self.seen.classes, 0..=2, least);
        self.given_each("shape", &self.seen.shapes, 0..=4, least);
    }

    /// The same for quotes: each of some numbers, and both values of the cancel flag.
    pub fn require_of_quotes(&self, numbers: &[u64], least: u64) {
        let seen = &self.seen;
        self.given_each("number", &seen.numbers, numbers.iter().copied(), least);
        self.given_each("cancel", &seen.cancels, 0..=1, least);
        self.lent_each(least / 10);
    }

    /// The same for pairs: each of some numbers, of either order, and both orders passing, one of
    /// them, or none.
    pub fn require_of_pairs(&self, numbers: &[u64], least: u64) {
        let seen = &self.seen;
        for (whose, counts) in [("number", &seen.numbers), ("contra", &seen.contra_numbers)] {
            self.given_each(whose, counts, numbers.iter().copied(), least);
        }
        self.given_each("passing", &seen.passing, 0..=2, least);
        self.lent_each(least / 10);
    }

    /// Fails unless just these were met by a test that counts by itself, each at least so often.
    pub fn require_just<K: Ord + Debug>(
        &self,
        what: &str,
        met: &BTreeMap<K, u64>,
        all: &[K],
        least: u64,
    ) {
        let name = self.name;
        for one in all {
            let times = met.get(one).copied().unwrap_or(0);
            assert!(times >= least, "{name}: {one:?}: {times}");
        }
        assert_eq!(met.len(), all.len(), "{name}: {met:?}");
        let (number, least) = (met.len(), met.values().min().expect("one at least"));
        println!("{name}: {number} {what}, each at least {least} times");
    }

    fn lent_each(&self, least: u64) {
        let [settings, market] = [setting::LENGTH, market::LENGTH]
            .map(|right| wrong_lengths(right).map(|length| length as u64));
        let seen = &self.seen;
        self.given_each("settings", &seen.settings, settings, least);
        self.given_each("market", &seen.market, market, least);
    }

    fn given_each(
        &self,
        what: &str,
        counts: &Counts,
        values: impl IntoIterator<Item = u64>,
        least: u64,
    ) {
        for value in values {
            let times = counts.get(&value).copied().unwrap_or(0);
            assert!(times >= least, "{}: {what} {value}: {times}", self.name);
        }
    }
}
