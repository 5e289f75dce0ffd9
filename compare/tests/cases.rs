//! Every case of the files `cases/*.desk`, held by the library and by the second implementation; and
//! what becomes of each when something in it is changed: both must answer alike, and as a rule says
//! where one says how.

use compare::{
    arrival::{Answer, Arrival, RawLeg},
    case::Case,
    cases::{self, Expected},
    crossing::Crossing,
    limits::{every, EXTREMES},
    numbers::{self, kind, Kind, Of, ACCEPTED, BAD_MARKET, BAD_SETTING, BAD_SHARES, NOT_21_BYTES},
    order,
    pair::Pair,
    quote::{Quote, QuoteAnswer},
    run::Run,
    slices::{market, setting},
};
use std::collections::BTreeSet;

/// Every number that a line can get: none lends bytes of another length.
fn numbers_of(what: Of) -> Vec<u64> {
    let numbers = numbers::of(what).into_iter();
    numbers.filter(|&number| number != NOT_21_BYTES).collect()
}

/// Holds the cases of all files, among which must be those with these names.
fn hold<C: Case>(run: &mut Run, cases: &[Expected<C>], names: &[&str]) {
    for expected in cases {
        let (case, place) = (&expected.case, &expected.place);
        assert_eq!(case.second(), expected.answer, "{place}");
        run.expect(case, expected.answer.clone(), place);
    }
    for name in names {
        let file = format!("cases/{name}.desk:");
        let held = cases.iter().any(|case| case.place.starts_with(&file));
        assert!(held, "{file}");
    }
}

#[test]
fn both_hold_every_order() {
    let mut run = Run::new("orders of cases");
    let orders = cases::all().orders;
    hold(&mut run, &orders, &["orders", "papers", "stock_orders"]);
    for order in &orders {
        let by_contracts = order::check_by_contracts(&order.case);
        assert_eq!(by_contracts, order.answer, "{}, by contracts", order.place);
    }
    run.finish(&numbers_of(Of::Order), 800);
    run.require_classes_and_shapes(1);
}

#[test]
fn both_hold_every_message() {
    let mut run = Run::new("messages of cases");
    hold(&mut run, &cases::all().messages, &["messages"]);
    run.finish(&numbers_of(Of::Message), 150);
}

/// Each number of a pair, also at prices next to its own, is the one that the order gets alone.
#[test]
fn both_hold_every_pair() {
    let mut run = Run::new("pairs of cases");
    let pairs = cases::all().pairs;
    hold(&mut run, &pairs, &["pairs", "papers"]);
    run.require_of_pairs(&numbers_of(Of::Order), 1);
    for pair in near(&pairs) {
        let answer = run.compare(&pair);
        let numbers = pair.orders().map(|order| order.library().number);
        assert_eq!(
            numbers,
            [answer.agency_number, answer.contra_number],
            "{pair}"
        );
    }
    run.finish(&numbers_of(Of::Order), 17 * 350);
}

/// Whether a quote is resting changes the cancel flag alone, which is set where a check rejects.
#[test]
fn both_hold_every_quote() {
    let mut run = Run::new("quotes of cases");
    let quotes = cases::all().quotes;
    hold(&mut run, &quotes, &["quotes", "papers"]);
    for quote in quotes {
        let number = quote.answer.number;
        for resting in [0, 1, u64::MAX] {
            let cancel = u64::from(resting != 0 && kind(number) == Kind::Rejected);
            let case = Quote {
                resting,
                ..quote.case.clone()
            };
            run.expect(&case, QuoteAnswer { number, cancel }, &quote.place);
        }
    }
    run.finish(&numbers_of(Of::Quote), 4 * 300);
}

/// Every number that a line can get of a crossing quote.
fn numbers_of_crossings() -> Vec<u64> {
    [numbers_of(Of::Quote), numbers_of(Of::Crossing)].concat()
}

/// Whether a quote is resting changes the cancel flag alone, as of a quote, and fills lent beyond the
/// list are 0.
#[test]
fn both_hold_every_crossing() {
    let mut run = Run::new("crossing quotes of cases");
    let crossings = cases::all().crossings;
    hold(&mut run, &crossings, &["crossing", "papers"]);
    for crossing in crossings {
        for resting in [0, 1, u64::MAX] {
            let (mut case, mut answer) = (crossing.case.clone(), crossing.answer.clone());
            case.quote.resting = resting;
            case.fills_length += 3;
            answer.cancel = u64::from(resting != 0 && kind(answer.number) == Kind::Rejected);
            answer.fills.extend([0; 3]);
            run.expect(&case, answer, &crossing.place);
        }
    }
    run.finish(&numbers_of_crossings(), 4 * 250);
}

/// An order is the same in another sequence of its legs, and where all counts are divided or
/// multiplied by one number, which leaves the unit counts.
#[test]
fn sequence_and_scale_change_nothing() {
    let mut run = Run::new("sequence and scale");
    for order in cases::all().orders {
        let mut hold = |legs: Vec<RawLeg>| {
            run.expect(&order.case.with_legs(&legs), order.answer, &order.place);
        };
        let mut legs = order.case.legs();
        for _ in 0..legs.len() {
            legs.rotate_left(1);
            hold(legs.clone());
            hold(legs.iter().rev().copied().collect());
        }
        let sizes = legs.iter().map(|leg| leg.1.unsigned_abs());
        let Some(largest @ 1..=10_000) = sizes.max().map(|size| size as i64) else {
            continue; // a count outside its limits may come within them
        };
        let divides = |by: &i64| legs.iter().all(|leg| leg.1 % by == 0);
        let divisors = (1..=largest).filter(divides).map(|by| (1, by));
        let factors = [2, 10_000 / largest].map(|by| (by, 1)).into_iter();
        for (up, down) in divisors.chain(factors.filter(|by| by.0 * largest <= 10_000)) {
            let scaled = legs.iter().map(|leg| (leg.0, leg.1 * up / down));
            hold(scaled.collect());
        }
    }
    run.finish(&numbers_of(Of::Order), 2_000);
}

/// With shares an order meets no check but 22, and that only where all is on one side; nor must the
/// price of one leg have a sign. Too many shares are refused after what comes before them.
#[test]
fn shares_put_to_orders() {
    let mut run = Run::new("shares put to cases");
    for order in near(&cases::all().orders) {
        let (order, legs) = (order.with_shares(0), order.legs());
        let mut unchecked = of_right_sign(&order);
        unchecked.settings[setting::CHECK_20..=setting::CHECK_25].fill(0);
        let unchecked_answer = run.compare(&unchecked);
        for shares in [1, -1, 1_000_000, -1_000_000_i64] {
            let order = order.with_shares(shares);
            let is_on_their_side = |(_, count): &RawLeg| count.signum() == shares.signum();
            if !legs.iter().all(is_on_their_side) {
                run.expect(&order, unchecked_answer, "the order without checks");
            } else if legs.len() > 1 {
                unchecked.settings[setting::CHECK_22] = order.settings[setting::CHECK_22];
                let expected = run.compare(&unchecked);
                run.expect(&order, expected, "the order with 22 alone");
            } else {
                run.compare(&order);
            }
        }
        let expected = match unchecked_answer.number {
            3..=8 => unchecked_answer,
            _ => Answer::refusal(BAD_SHARES),
        };
        for shares in [1_000_001, -1_000_001, i64::MAX, i64::MIN] {
            run.expect(&order.with_shares(shares), expected, "the rule");
        }
    }
    run.finish(&[0, 3, 4, 5, 6, 7, 8, 9, 10, 22, 33], 9 * 3_600);
}

/// At a price of the same size that a simple order may have, if it is one.
fn of_right_sign(order: &Arrival) -> Arrival {
    let price = match order.legs()[..] {
        [(_, count)] => order.price.saturating_abs().max(1) * count.signum(),
        _ => order.price,
    };
    Arrival {
        price,
        ..order.clone()
    }
}

/// A pair is the same where two legs of one of its orders are exchanged.
#[test]
fn exchanged_legs_change_nothing() {
    let mut run = Run::new("exchanged legs");
    for pair in cases::all().pairs {
        for exchanged in with_legs_exchanged(&pair.case) {
            run.expect(&exchanged, pair.answer, &pair.place);
        }
    }
    run.finish(&[], 5_000);
    run.require_of_pairs(&[0, 3, 4, 5, 6, 7, 22, 23, 24], 1);
}

/// The pair with every two legs of the agency order exchanged, then every two of the contra order.
fn with_legs_exchanged(pair: &Pair) -> Vec<Pair> {
    let mut pairs = Vec::new();
    for side in 0..2 {
        let legs = pair.orders()[side].legs();
        for one in 0..legs.len() {
            for other in 0..one {
                let (mut orders, mut legs) = (pair.orders(), legs.clone());
                legs.swap(one, other);
                orders[side] = orders[side].with_legs(&legs);
                pairs.push(Pair::of(&orders[0], &orders[1], pair.continue_unpaired));
            }
        }
    }
    pairs
}

/// What can be changed in a case.
trait Varied: Case + Clone {
    /// The names of the numbers that are neither setting nor market value.
    const OWN: &'static [&'static str];

    /// Its own numbers, then settings and market.
    fn numbers(&mut self) -> Vec<&mut u64>;

    /// The case, and the same at prices next to its own.
    fn at_near_prices(&self) -> Vec<Self>;

    fn number(answer: &Self::Answer) -> u64;

    fn names() -> Vec<&'static str> {
        [Self::OWN, setting::NAMES, market::NAMES].concat()
    }

    /// Replaces the settings and the market, or the first of them.
    fn put_terms(&mut self, terms: &[u64]) {
        let places = self.numbers().into_iter().skip(Self::OWN.len());
        places.zip(terms).for_each(|(place, term)| *place = *term);
    }
}

impl Varied for Arrival {
    const OWN: &'static [&'static str] = &["KIND", "STOP", "MANUAL", "OPENING"];

    fn numbers(&mut self) -> Vec<&mut u64> {
        let flags = [&mut self.kind, &mut self.stop, &mut self.manual];
        let flags = flags.into_iter().chain([&mut self.opening]);
        let terms = self.settings.iter_mut().chain(&mut self.market);
        flags.chain(terms).collect()
    }

    fn at_near_prices(&self) -> Vec<Self> {
        let more_and_less = [0, 1, -1].map(|by| self.price.wrapping_add(by));
        let prices = more_and_less.into_iter().chain([self.price.wrapping_neg()]);
        let at = |price| Arrival {
            price,
            ..self.clone()
        };
        prices.map(at).collect()
    }

    fn number(answer: &Self::Answer) -> u64 {
        answer.number
    }
}

impl Varied for Pair {
    #[rustfmt::skip]
    const OWN: &'static [&'static str] = &[
        "AGENCY_KIND", "AGENCY_STOP", "AGENCY_MANUAL", "AGENCY_OPENING",
        "CONTRA_KIND", "CONTRA_STOP", "CONTRA_MANUAL", "CONTRA_OPENING",
        "CONTINUE_UNPAIRED",
    ];

    fn numbers(&mut self) -> Vec<&mut u64> {
        let Pair {
            agency,
            contra,
            continue_unpaired,
        } = self;
        #[rustfmt::skip]
        let own = [
            &mut agency.kind, &mut agency.stop, &mut agency.manual, &mut agency.opening,
            &mut contra.kind, &mut contra.stop, &mut contra.manual, &mut contra.opening,
            continue_unpaired,
        ];
        let terms = agency.settings.iter_mut().chain(&mut agency.market);
        own.into_iter().chain(terms).collect()
    }

    fn at_near_prices(&self) -> Vec<Self> {
        let [agency, contra] = self.orders().map(|order| order.at_near_prices());
        let beside = |agency| {
            let pair = move |contra| Pair::of(agency, contra, self.continue_unpaired);
            contra.iter().map(pair)
        };
        agency.iter().flat_map(beside).collect()
    }

    fn number(answer: &Self::Answer) -> u64 {
        answer.agency_number
    }
}

impl Varied for Quote {
    const OWN: &'static [&'static str] = &["BID", "OFFER", "RESTING"];

    fn numbers(&mut self) -> Vec<&mut u64> {
        let own = [&mut self.bid, &mut self.offer, &mut self.resting];
        let terms = self.settings.iter_mut().chain(&mut self.market);
        own.into_iter().chain(terms).collect()
    }

    fn at_near_prices(&self) -> Vec<Self> {
        let by = |(bid, offer)| Quote {
            bid: self.bid.wrapping_add_signed(bid),
            offer: self.offer.wrapping_add_signed(offer),
            ..self.clone()
        };
        [(0, 0), (1, 0), (-1, 0), (0, 1), (0, -1)].map(by).to_vec()
    }

    fn number(answer: &Self::Answer) -> u64 {
        answer.number
    }
}

impl Varied for Crossing {
    const OWN: &'static [&'static str] = &["SELL", "SIZE", "AWAY", "BID", "OFFER", "RESTING"];

    fn numbers(&mut self) -> Vec<&mut u64> {
        let own = [&mut self.sell, &mut self.size, &mut self.away];
        own.into_iter().chain(self.quote.numbers()).collect()
    }

    /// The quote's, the away price and each one of the list.
    fn at_near_prices(&self) -> Vec<Self> {
        let quotes = self.quote.at_near_prices().into_iter();
        let of_quote = quotes.map(|quote| Crossing {
            quote,
            ..self.clone()
        });
        let mut all: Vec<Self> = of_quote.collect();
        for by in [1, -1] {
            let mut near = self.clone();
            near.away = self.away.wrapping_add_signed(by);
            all.push(near);
            for place in 0..self.prices.len() {
                let mut near = self.clone();
                near.prices[place] = self.prices[place].wrapping_add_signed(by);
                all.push(near);
            }
        }
        all
    }

    fn number(answer: &Self::Answer) -> u64 {
        answer.number
    }
}

/// Whether a number is 0 for no, and anything else for yes.
fn is_flag(name: &str) -> bool {
    let others = "KIND STOP MANUAL OPENING SELL RESTING CONTINUE_UNPAIRED \
        ADJUSTED EUROPEAN_INDEX OPEN_ELSEWHERE EXTENDED_HOURS";
    name.starts_with("CHECK_") || others.split(' ').any(|flag| name.ends_with(flag))
}

/// Gives every number of each case other values. All values of a flag but 0 are alike. Tells which
/// numbers decide nothing as long as settings and market are within their limits.
fn change_numbers<C: Varied>(run: &mut Run, cases: impl Iterator<Item = C>) -> Vec<&'static str> {
    let values = [0, 1, 2, 3, 255, 256, 1 << 16, 1 << 31, (1 << 32) + 1];
    let refused = |answer: &C::Answer| [BAD_SETTING, BAD_MARKET].contains(&C::number(answer));
    let mut deciding = BTreeSet::new();
    for mut case in cases {
        let before = run.compare(&case);
        for (place, name) in C::names().into_iter().enumerate() {
            let value = *case.numbers()[place];
            let near = [value.wrapping_sub(1), value.wrapping_add(1)];
            let mut yes = None;
            for other in [&values[..], &EXTREMES, &near].concat() {
                *case.numbers()[place] = other;
                let answer = run.compare(&case);
                if other != 0 && is_flag(name) {
                    assert_eq!(answer, *yes.get_or_insert(answer.clone()), "{name}: {case}");
                }
                if answer != before && !refused(&answer) && !refused(&before) {
                    deciding.insert(name);
                }
            }
            *case.numbers()[place] = value;
        }
    }
    let mut idle = C::names();
    idle.retain(|name| !deciding.contains(name));
    idle
}

/// Every case, and the same at prices next to its own.
fn near<C: Varied>(cases: &[Expected<C>]) -> impl Iterator<Item = C> + '_ {
    cases.iter().flat_map(|case| case.case.at_near_prices())
}

/// Each number decides somewhere, except those that no rule of the check names.
#[test]
fn numbers_of_orders_changed() {
    let mut run = Run::new("orders changed");
    let idle = change_numbers(&mut run, near(&cases::all().orders));
    assert_eq!(idle, ["CHECK_26", "SET_TICKS"]);
    run.finish(&numbers_of(Of::Order), 500_000);
}

/// The flags of both orders decide somewhere, and so does the mark; settings and market values do
/// in orders.
#[test]
fn numbers_of_pairs_changed() {
    let mut run = Run::new("pairs changed");
    let pairs = cases::all().pairs.into_iter();
    let idle = change_numbers(&mut run, pairs.map(|pair| pair.case));
    let decides = |name| !idle.contains(name);
    assert!(Pair::OWN.iter().all(decides), "{idle:?}");
    run.finish(&numbers_of(Of::Order), 150_000);
}

/// As for orders.
#[test]
fn numbers_of_quotes_changed() {
    const IDLE: &str = "CHECK_22 CHECK_23 CHECK_24 CHECK_25 NET_INCREMENT \
        ATD_BELOW_1000 ATD_TO_2999 ATD_TO_9999 ATD_FROM_10000 \
        PERCENTAGE PRESET_MINIMUM PRESET_MAXIMUM EUROPEAN_INDEX PREVIOUS_CLOSE";
    let mut run = Run::new("quotes changed");
    let idle = change_numbers(&mut run, near(&cases::all().quotes));
    assert_eq!(idle.join(" "), IDLE);
    run.finish(&numbers_of(Of::Quote), 500_000);
}

/// The numbers of a crossing quote's own decide somewhere; settings and market values do in quotes.
#[test]
fn numbers_of_crossings_changed() {
    let mut run = Run::new("crossing quotes changed");
    let idle = change_numbers(&mut run, near(&cases::all().crossings));
    let decides = |name| !idle.contains(name);
    assert!(Crossing::OWN.iter().all(decides), "{idle:?}");
    run.finish(&numbers_of_crossings(), 500_000);
}

/// With every choice of switches, the lowest check is given that is on and rejects the case alone.
/// Tells which checks reject a case together.
fn switch_checks<C: Varied>(run: &mut Run, cases: &[Expected<C>]) -> BTreeSet<Vec<u64>> {
    let mut together = BTreeSet::new();
    let is_valid = |case: &&Expected<C>| kind(C::number(&case.answer)) != Kind::Refused;
    for expected in cases.iter().filter(is_valid) {
        let mut case = expected.case.clone();
        let with_switches = |switches: [u64; 7]| {
            case.put_terms(&switches);
            C::number(&run.compare(&case))
        };
        let numbers: Vec<u64> = every(&[0, 1]).map(with_switches).collect();
        let rejecting = |choice: usize| {
            let on = (0..7).filter(|check| choice >> check & 1 == 1);
            let rejecting = on.filter(|check| numbers[1 << check] != ACCEPTED);
            rejecting.map(|check| 20 + check).collect::<Vec<u64>>()
        };
        for (choice, number) in numbers.iter().enumerate() {
            let lowest = rejecting(choice).first().copied();
            assert_eq!(*number, lowest.unwrap_or(ACCEPTED), "{}", expected.place);
        }
        together.insert(rejecting(127));
    }
    together
}

#[test]
fn lowest_check_that_is_on() {
    let mut run = Run::new("switches");
    let cases = cases::all();
    let mut together = switch_checks(&mut run, &cases.orders);
    together.append(&mut switch_checks(&mut run, &cases.quotes));
    together.append(&mut switch_checks(&mut run, &cases.crossings));
    for two in [[20, 25], [21, 25], [22, 23], [23, 24], [20, 26], [21, 26]] {
        assert!(together.contains(two.as_slice()), "{two:?}");
    }
    run.finish(&[0, 20, 21, 22, 23, 24, 25, 26], 128 * 500);
}

fn put_under<C: Varied>(run: &mut Run, cases: &[Expected<C>], terms: &[u64]) {
    for mut case in cases.iter().map(|expected| expected.case.clone()) {
        case.put_terms(terms);
        run.compare(&case);
    }
}

/// Each case under the settings and the market of every other.
#[test]
fn every_case_under_all_terms() {
    let mut run = Run::new("all terms");
    let cases = cases::all();
    let of_orders = cases.orders.iter().map(|order| &order.case);
    let of_orders = of_orders.map(|case| (&case.settings, &case.market));
    let of_pairs = cases.pairs.iter().map(|pair| &pair.case);
    let of_pairs = of_pairs.map(|case| (&case.agency.settings, &case.agency.market));
    let of_quotes = cases.quotes.iter().map(|quote| &quote.case);
    let of_crossings = cases.crossings.iter().map(|crossing| &crossing.case.quote);
    let of_quotes = of_quotes.chain(of_crossings);
    let of_quotes = of_quotes.map(|case| (&case.settings, &case.market));
    let all = of_orders.chain(of_pairs).chain(of_quotes);
    for (settings, market) in all.collect::<BTreeSet<_>>() {
        let terms = [&settings[..], market].concat();
        put_under(&mut run, &cases.orders, &terms);
        put_under(&mut run, &cases.pairs, &terms);
        put_under(&mut run, &cases.quotes, &terms);
        put_under(&mut run, &cases.crossings, &terms);
    }
    run.finish(&[0, 9, 10, 20, 21, 22, 23, 24, 25, 26], 100 * 500);
}
