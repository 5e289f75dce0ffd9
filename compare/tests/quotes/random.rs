//! Quotes made up at random.

use super::situation::{self, Place, Side, Situation};
use compare::{
    generate::quote,
    numbers::{self, Of},
    quote::{Quote, QuoteAnswer},
    run::Run,
    slices::{market::*, setting::*},
};
use std::collections::BTreeMap;

const COMPARISONS: u64 = 2_000_000;
const LEAST_OF_EACH: u64 = 1_000;
const LEAST_OF_EACH_SITUATION: u64 = 100;

/// How often 26 met each situation, whether it rejected the quote or not, and each situation next to
/// the limit of the two ticks.
#[derive(Default)]
struct Met {
    situations: BTreeMap<Situation, u64>,
    around_3000: BTreeMap<(Side, u64, Place), u64>,
    /// By phase, open elsewhere and switch.
    phases: BTreeMap<(u64, bool, bool), u64>,
}

#[test]
fn both_give_the_same_answers() {
    let mut run = Run::new("quotes");
    let mut met = Met::default();
    while run.comparisons < COMPARISONS {
        let quote = quote(&mut run.random);
        let answer = run.compare(&quote);
        met.count(&quote, &answer);
    }
    run.report();
    run.require_of_quotes(&numbers::of(Of::Quote), LEAST_OF_EACH);
    met.require();
}

impl Met {
    fn count(&mut self, quote: &Quote, answer: &QuoteAnswer) {
        if ![0, 26].contains(&answer.number) {
            return; // 26 may not have been asked
        }
        let elsewhere = quote.market[OPEN_ELSEWHERE] != 0;
        let (phase, switch) = (quote.market[PHASE], quote.settings[CHECK_26] != 0);
        *self.phases.entry((phase, elsewhere, switch)).or_default() += 1;
        let applies = phase == OPEN || phase == PRE_OPENING && elsewhere;
        if !applies || !switch {
            return;
        }
        for side in Side::BOTH {
            let met = situation::of(quote, side);
            *self.situations.entry(met.situation).or_default() += 1;
            if (2_999..=3_000).contains(&met.compared) {
                let around = (side, met.compared, met.situation.3);
                *self.around_3000.entry(around).or_default() += 1;
            }
        }
    }

    fn require(&self) {
        let least = self.situations.values().min();
        let (number, least) = (self.situations.len(), least.expect("one at least"));
        println!("quotes: 26 met {number} situations, each at least {least} times");
        for situation in situation::all() {
            let times = self.situations.get(&situation).copied().unwrap_or(0);
            assert!(times >= LEAST_OF_EACH_SITUATION, "{situation:?}: {times}");
        }
        assert_eq!(self.situations.len(), situation::all().len());
        for side in Side::BOTH {
            for compared in [2_999, 3_000] {
                for place in [Place::AtSetTicks, Place::OneBeyondSetTicks] {
                    let around = (side, compared, place);
                    let times = self.around_3000.get(&around).copied().unwrap_or(0);
                    assert!(times >= LEAST_OF_EACH_SITUATION, "{around:?}: {times}");
                }
            }
        }
        assert_eq!(self.phases.len(), 3 * 2 * 2);
        assert!(self.phases.values().all(|&times| times >= LEAST_OF_EACH));
    }
}
