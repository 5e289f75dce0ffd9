//! Crossing quotes made up at random.

use super::{
    put, put_both_ways,
    situation::{self, Edge, Situation, EDGES, FAULTS},
};
use compare::{
    crossing::{Crossing, CrossingAnswer},
    generate::crossing,
    numbers::{self, Of, ACCEPTED, BAD_CROSSING},
    run::Run,
    slices::setting::*,
};
use std::collections::BTreeMap;

const COMPARISONS: u64 = 600_000;
const LEAST_OF_EACH: u64 = 1_000;
const LEAST_OF_EACH_SITUATION: u64 = 100;

/// The lengths of lists that are accepted, of which each is met; others are too.
const LENGTHS: [usize; 6] = [0, 1, 2, 3, 63, 64];

/// How often what was met by accepted quotes, and each fault alone by those that got 36.
#[derive(Default)]
struct Met {
    situations: BTreeMap<Situation, u64>,
    edges: BTreeMap<(bool, Edge), u64>,
    lengths: BTreeMap<usize, u64>,
    /// By whether it is a sell.
    faults: BTreeMap<(bool, &'static str), u64>,
}

/// As they are; and with the checks off, when the mirror has the same answer.
#[test]
fn both_give_the_same_answers() {
    let mut run = Run::new("crossing quotes");
    let mut met = Met::default();
    while run.comparisons < COMPARISONS {
        let mut crossing = crossing(&mut run.random);
        let answer = put(&mut run, &crossing);
        met.count(&crossing, &answer);
        if let Some(switches) = crossing.quote.settings.get_mut(CHECK_20..=CHECK_26) {
            switches.fill(0);
            let answer = put_both_ways(&mut run, &crossing);
            met.count(&crossing, &answer);
        }
    }
    run.report();
    let numbers = [numbers::of(Of::Quote), numbers::of(Of::Crossing)].concat();
    run.require_of_quotes(&numbers, LEAST_OF_EACH);
    met.require(&run);
}

impl Met {
    fn count(&mut self, crossing: &Crossing, answer: &CrossingAnswer) {
        let sell = crossing.is_sell();
        match answer.number {
            ACCEPTED => self.count_accepted(crossing, answer),
            BAD_CROSSING => {
                if let [fault] = situation::faults(crossing)[..] {
                    *self.faults.entry((sell, fault)).or_default() += 1;
                }
            }
            _ => (),
        }
    }

    fn count_accepted(&mut self, crossing: &Crossing, answer: &CrossingAnswer) {
        assert!(situation::faults(crossing).is_empty(), "{crossing}");
        let situation = situation::of(crossing, answer);
        *self.situations.entry(situation).or_default() += 1;
        let length = crossing.prices.len();
        if LENGTHS.contains(&length) {
            *self.lengths.entry(length).or_default() += 1;
        }
        if answer.executed == crossing.size {
            return; // a price may not have been asked for
        }
        for &price in &crossing.prices {
            for edge in situation::edges(crossing, price) {
                *self.edges.entry((crossing.is_sell(), edge)).or_default() += 1;
            }
        }
    }

    fn require(&self, run: &Run) {
        let least = LEAST_OF_EACH_SITUATION;
        fn of_both<T: Copy>(all: &[T]) -> Vec<(bool, T)> {
            let of_side = |sell| all.iter().map(move |&one| (sell, one));
            [false, true].into_iter().flat_map(of_side).collect()
        }
        run.require_just("situations", &self.situations, &situation::all(), least);
        run.require_just("edges", &self.edges, &of_both(&EDGES), least);
        run.require_just("lengths", &self.lengths, &LENGTHS, least);
        run.require_just("faults alone", &self.faults, &of_both(&FAULTS), least);
    }
}
