//! Which number is given first: faults of the quote, of what it meets and what checks reject, in any
//! choice together.

use super::{refusal, statements};
use compare::{
    crossing::{Crossing, CrossingAnswer},
    generate::quote,
    limits::{every_length, faults_together, Fault},
    numbers::{kind, Kind, ACCEPTED, BAD_CROSSING},
    quote::{Quote, QuoteAnswer},
    run::Run,
    series::put,
    slices::{market::*, setting::*},
    unit,
};

const MARCH: u64 = 160_318;
const STRIKE: u64 = 18_000;

/// Everything that 36 is given for.
const WRONG: [fn(&mut Crossing); 13] = [
    |crossing| crossing.sizes.truncate(2),
    |crossing| crossing.prices.truncate(2),
    |crossing| crossing.prices[1] = crossing.prices[0],
    |crossing| crossing.prices.swap(0, 1),
    |crossing| crossing.prices.fill(0),
    |crossing| crossing.prices[2] = 1_000_000_001,
    |crossing| crossing.sizes[1] = 0,
    |crossing| crossing.sizes[2] = 1_000_001,
    |crossing| crossing.size = 0,
    |crossing| crossing.size = 1_000_001,
    |crossing| crossing.away = 1_000_000_001,
    |crossing| crossing.fills_length = 2,
    |crossing| {
        crossing.prices = (1..=65).collect();
        crossing.sizes = vec![1; 65];
        crossing.fills_length = 65;
    },
];

/// A bid for a put that meets three offers.
fn accepted() -> Crossing {
    let quote = Quote::new(&put(MARCH, STRIKE).symbol(), 17_000, STRIKE + 1);
    let offers = [(16_000, 10), (16_500, 20), (17_000, 30)];
    Crossing::new(quote, 100, &offers)
}

/// One of each number; what gets 36 is chosen.
fn faults(wrong: fn(&mut Crossing)) -> [Fault<Crossing>; 8] {
    [
        (1, |crossing| crossing.quote.symbol.push(b'0')),
        (4, |crossing| crossing.quote.symbol[0] = b'x'),
        (9, |crossing| crossing.quote.settings[SET_TICKS] = 1_001),
        (10, |crossing| crossing.quote.market[PHASE] = 3),
        (11, |crossing| crossing.quote.offer = crossing.quote.bid),
        (BAD_CROSSING, wrong),
        (20, |crossing| crossing.quote.bid = STRIKE),
        (26, |crossing| crossing.quote.market[NBO] = 17_000),
    ]
}

/// Puts it to both, with and without a quote resting: a rejection alone cancels that.
fn hold(run: &mut Run, crossing: &Crossing, number: u64) {
    for resting in [0, 1] {
        let mut crossing = crossing.clone();
        crossing.quote.resting = resting;
        let answer = run.compare(&crossing);
        statements::hold(&crossing, &answer);
        assert_eq!(answer.number, number, "{crossing}");
        if number != ACCEPTED {
            let is_rejected = kind(number) == Kind::Rejected;
            let cancel = if is_rejected { resting } else { 0 };
            let expected = CrossingAnswer {
                cancel,
                ..refusal(number, crossing.fills_length)
            };
            assert_eq!(answer, expected, "{crossing}");
        }
    }
}

const NUMBERS: [u64; 9] = [0, 1, 4, 9, 10, 11, 20, 26, BAD_CROSSING];

#[test]
fn first_number_first() {
    let mut run = Run::new("faults of crossing quotes");
    for wrong in WRONG {
        for (crossing, number) in faults_together(&accepted(), &faults(wrong)) {
            hold(&mut run, &crossing, number);
        }
    }
    run.finish(&NUMBERS, 13 * 256 * 2);
}

/// With settings and market of every length.
#[test]
fn first_number_first_at_every_length() {
    let mut run = Run::new("lengths of crossing quotes");
    for (crossing, number) in faults_together(&accepted(), &faults(WRONG[0])) {
        for (settings, market, number) in every_length(number) {
            let mut crossing = crossing.clone();
            crossing.quote.settings.resize(settings, 1);
            crossing.quote.market.resize(market, 1);
            hold(&mut run, &crossing, number);
        }
    }
    run.finish(&NUMBERS, 256 * 80 * 2);
}

/// 21 and 26 reject a bid for a call and an offer of it, whichever side meets the list, and 36 comes
/// before them.
#[test]
fn a_rejection_of_either_side() {
    let mut run = Run::new("rejections");
    let mut of_call = accepted();
    of_call.quote.symbol[12] = b'C';
    let rejections: [Fault<Crossing>; 3] = [
        (21, |crossing| crossing.quote.market[UNDERLYING] = 17_000),
        (26, |crossing| crossing.quote.market[NBO] = 17_000),
        (26, |crossing| crossing.quote.market[NBB] = STRIKE + 1),
    ];
    for (number, reject) in rejections {
        for wrong in WRONG {
            let mut crossing = of_call.clone();
            reject(&mut crossing);
            wrong(&mut crossing);
            hold(&mut run, &crossing, BAD_CROSSING);
        }
        for sell in [0, 1] {
            let mut crossing = of_call.clone();
            reject(&mut crossing);
            crossing.sell = sell;
            if sell == 1 {
                crossing.prices.reverse();
            }
            hold(&mut run, &crossing, number);
        }
    }
    run.finish(&[21, 26, BAD_CROSSING], 3 * 15 * 2);
}

/// Quotes made up at random, beside an empty list and beside what gets 36: number and flag are the
/// quote check's own, or 36 takes their place where it does not refuse.
#[test]
fn number_and_flag_of_any_quote() {
    let mut run = Run::new("lists beside quotes");
    while run.comparisons < 200_000 {
        let quote = quote(&mut run.random);
        let QuoteAnswer { number, cancel } = unit::check_quote(&quote);
        let right = Crossing::new(quote, 1, &[]);
        let mut wrong = right.clone();
        wrong.size = 0;
        let answer = run.compare(&right);
        assert_eq!((answer.number, answer.cancel), (number, cancel), "{right}");
        let number = if kind(number) == Kind::Refused {
            number
        } else {
            BAD_CROSSING
        };
        assert_eq!(run.compare(&wrong), refusal(number, 0), "{wrong}");
    }
    run.require_of_quotes(&[0, 1, 4, 9, 10, 11, 20, 21, 26, BAD_CROSSING], 100);
}
