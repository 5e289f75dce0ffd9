//! Crossing quotes put to both implementations: the papers' own, every one in every small book, lists
//! and values at each limit and beyond, faults together, and those made up at random. Every answer is
//! held to what document 02, S-7, says of fills, beside the second implementation; a sell is put
//! beside the bid that it is in a mirror.

mod limits;
mod numbers;
mod papers;
mod random;
mod situation;
mod small_books;
mod statements;

use compare::{
    crossing::{Crossing, CrossingAnswer},
    generate::mirrored,
    quote::{Quote, QuoteAnswer},
    run::Run,
    series::call,
};

const MARCH: u64 = 160_318;

/// Beside this offer any bid is a quote, which no check rejects while the market's values are missing.
const HIGH: u64 = 1_000_000_000;

fn bid(bid: u64, size: u64, offers: &[(u64, u64)]) -> Crossing {
    let quote = Quote::new(&call(MARCH, 20_000).symbol(), bid, HIGH);
    Crossing::new(quote, size, offers)
}

/// The same seen from the other side, bids as offers and a purchase as a sale, by what a price is
/// there.
fn turned(crossing: &Crossing, mirrored: fn(u64) -> u64) -> Crossing {
    let mut other = crossing.clone();
    let Quote { bid, offer, .. } = crossing.quote;
    other.sell = u64::from(!crossing.is_sell());
    (other.quote.bid, other.quote.offer) = (mirrored(offer), mirrored(bid));
    other.prices = crossing.prices.iter().copied().map(mirrored).collect();
    if crossing.away != 0 {
        other.away = mirrored(crossing.away);
    }
    other
}

/// Puts a crossing quote to both, and holds the answer to the statements.
fn put(run: &mut Run, crossing: &Crossing) -> CrossingAnswer {
    let answer = run.compare(crossing);
    statements::hold(crossing, &answer);
    answer
}

/// The same, and in the mirror, where the answer is the same: no check may look at the quote.
fn put_both_ways(run: &mut Run, crossing: &Crossing) -> CrossingAnswer {
    let answer = put(run, crossing);
    let other = turned(crossing, mirrored);
    assert_eq!(
        put(run, &other),
        answer,
        "{crossing}\nin the mirror\n{other}"
    );
    answer
}

/// The same, held to a number.
fn hold_number(run: &mut Run, crossing: &Crossing, number: u64) {
    let answer = put_both_ways(run, crossing);
    assert_eq!(answer.number, number, "{crossing}");
}

/// Nothing is executed, and no resting quote is cancelled.
fn refusal(number: u64, fills_length: usize) -> CrossingAnswer {
    CrossingAnswer::nothing(QuoteAnswer { number, cancel: 0 }, fills_length)
}
