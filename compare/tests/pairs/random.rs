//! Pairs made up at random.

use super::answer;
use compare::{
    arrival::RawLeg,
    generate::{pair, reversed},
    limits::every,
    numbers::{self, kind, Kind, Of},
    pair::{Pair, PairAnswer},
    random::Random,
    run::Run,
    unit,
};
use std::collections::BTreeMap;

const COMPARISONS: u64 = 400_000;
const LEAST_OF_EACH: u64 = 1_000;

/// A way that a pair can go: whether it is marked, and the kinds of both numbers.
type Way = (bool, Kind, Kind);

/// How often each way was met, each way with two legs of either order exchanged, and each relation
/// of the orders.
#[derive(Default)]
struct Met {
    ways: BTreeMap<Way, u64>,
    exchanged: BTreeMap<(usize, Way), u64>,
    relations: BTreeMap<&'static str, u64>,
}

#[test]
fn both_give_the_same_answers() {
    let mut run = Run::new("pairs");
    let mut met = Met::default();
    while run.comparisons < COMPARISONS {
        let pair = pair(&mut run.random);
        let held = hold(&mut run, &pair);
        let way = way(&pair, &held);
        *met.ways.entry(way).or_default() += 1;
        *met.relations.entry(relation(&pair)).or_default() += 1;
        let side = run.random.index(2);
        let exchanged = with_legs_exchanged(&mut run.random, &pair, side);
        if let Some(other) = exchanged.filter(|_| run.random.index(4) == 0) {
            let other_held = hold(&mut run, &other);
            assert_eq!(held, other_held, "{pair}\nlegs exchanged\n{other}");
            *met.exchanged.entry((side, way)).or_default() += 1;
        }
    }
    run.report();
    run.require_of_pairs(&numbers::of(Of::Order), LEAST_OF_EACH);
    met.require(&run);
}

/// Puts a pair to both, and holds it to the numbers that its orders get alone.
fn hold(run: &mut Run, pair: &Pair) -> PairAnswer {
    let numbers = pair.orders().map(|order| unit::check_order(&order).number);
    let held = run.compare(pair);
    assert_eq!(held, answer(numbers, pair.continue_unpaired), "{pair}");
    held
}

fn way(pair: &Pair, answer: &PairAnswer) -> Way {
    let [agency, contra] = [answer.agency_number, answer.contra_number].map(kind);
    (pair.continue_unpaired != 0, agency, contra)
}

/// What the contra order is to the agency order. The reverse has as many shares on the other side.
const RELATIONS: [&str; 9] = [
    "the reverse at the opposite price",
    "the reverse with shares at the opposite price",
    "the reverse with other shares at the opposite price",
    "the reverse in another sequence at the opposite price",
    "the reverse at another price",
    "the same legs",
    "the same legs in another sequence",
    "other legs, and another number of them",
    "anything else",
];

fn relation(pair: &Pair) -> &'static str {
    let [agency, contra] = pair.orders();
    let reverse = reversed(&agency);
    let [legs, same, turned] = [&contra, &agency, &reverse].map(|order| order.legs());
    let [sorted, sorted_same, sorted_turned] = [&legs, &same, &turned].map(|legs| {
        let mut legs = legs.clone();
        legs.sort_unstable();
        legs
    });
    let is_other = |leg: &RawLeg| same.iter().all(|(symbol, _)| *symbol != leg.0);
    let are_other = !same.is_empty() && !legs.is_empty() && legs.iter().all(is_other);
    let is_opposite = legs == turned && contra.price == reverse.price;
    RELATIONS[match () {
        () if is_opposite && [contra.shares, reverse.shares] == [0, 0] => 0,
        () if is_opposite && contra.shares == reverse.shares => 1,
        () if is_opposite => 2,
        () if sorted == sorted_turned && contra.price == reverse.price => 3,
        () if sorted == sorted_turned => 4,
        () if legs == same => 5,
        () if sorted == sorted_same => 6,
        () if are_other && legs.len() != same.len() => 7,
        () => 8,
    }]
}

/// Two legs of one order exchanged, where its slices are whole legs, two or more.
fn with_legs_exchanged(random: &mut Random, pair: &Pair, side: usize) -> Option<Pair> {
    let mut orders = pair.orders();
    let order = &mut orders[side];
    let mut legs = order.legs();
    if legs.len() < 2 || order.with_legs(&legs) != *order {
        return None;
    }
    let one = random.index(legs.len());
    let other = (one + 1 + random.index(legs.len() - 1)) % legs.len();
    legs.swap(one, other);
    *order = order.with_legs(&legs);
    let [agency, contra] = &orders;
    Some(Pair::of(agency, contra, pair.continue_unpaired))
}

impl Met {
    fn require(&self, run: &Run) {
        let of_side = |side| ways().into_iter().map(move |way| (side, way));
        let exchanged: Vec<(usize, Way)> = (0..2).flat_map(of_side).collect();
        let least = LEAST_OF_EACH;
        run.require_just("ways", &self.ways, &ways(), least);
        run.require_just(
            "with legs exchanged",
            &self.exchanged,
            &exchanged,
            least / 10,
        );
        run.require_just("relations", &self.relations, &RELATIONS, least);
    }
}

fn ways() -> Vec<Way> {
    const KINDS: [Kind; 3] = [Kind::Accepted, Kind::Refused, Kind::Rejected];
    let of_mark = |marked| every(&KINDS).map(move |[agency, contra]| (marked, agency, contra));
    [false, true].into_iter().flat_map(of_mark).collect()
}
