//! A crossing quote (document 02, S-7): what its check is handed, which is a quote and what rests on
//! the other side, what it answers, a line of text, and the second implementation. There nothing of
//! the quote is counted down along the list: how much is executed below a price comes from all that
//! rests below it, and an offer's fill is the difference that its own price makes. Money is signed
//! as in `checks`, so a resting bid is an offer seen from the other side of zero.

use crate::{
    numbers::{first, ACCEPTED, BAD_CROSSING},
    quote::{Quote, QuoteAnswer},
    quote_check::{self, LARGEST_QUOTE},
    text::{just, list, numbers},
};
use std::{collections::BTreeSet, fmt, ops::RangeInclusive, str::FromStr};

/// The first word of a line that holds a crossing quote.
pub const CROSSING: &str = "crossing";

pub const MOST_RESTING: usize = 64;
pub const PRICES: RangeInclusive<u64> = 1..=LARGEST_QUOTE;
pub const SIZES: RangeInclusive<u64> = 1..=1_000_000;

/// Everything that one call is handed. The slices may hold anything and be of any length.
#[derive(Clone, Debug, PartialEq, Eq)]
pub struct Crossing {
    pub quote: Quote,
    /// Whether it is the offer against resting bids.
    pub sell: u64,
    pub size: u64,
    pub prices: Vec<u64>,
    pub sizes: Vec<u64>,
    pub away: u64,
    /// How many numbers are lent for the fills.
    pub fills_length: usize,
}

#[derive(Clone, Debug, PartialEq, Eq)]
pub struct CrossingAnswer {
    pub number: u64,
    pub cancel: u64,
    pub executed: u64,
    pub booked: u64,
    pub cancelled: u64,
    pub fills: Vec<u64>,
}

impl Crossing {
    /// A bid for so many against offers, each a price and a size, with none away.
    pub fn new(quote: Quote, size: u64, offers: &[(u64, u64)]) -> Self {
        let (prices, sizes) = offers.iter().copied().unzip();
        Crossing {
            quote,
            sell: 0,
            size,
            prices,
            sizes,
            away: 0,
            fills_length: offers.len(),
        }
    }

    pub fn is_sell(&self) -> bool {
        self.sell != 0
    }

    /// The price of the side that meets what rests.
    pub fn own_price(&self) -> u64 {
        if self.is_sell() {
            self.quote.offer
        } else {
            self.quote.bid
        }
    }

    fn signed(&self, price: u64) -> i128 {
        i128::from(price) * if self.is_sell() { -1 } else { 1 }
    }
}

impl CrossingAnswer {
    /// The answer to a quote of which nothing is executed.
    pub fn nothing(answer: QuoteAnswer, fills_length: usize) -> Self {
        CrossingAnswer {
            number: answer.number,
            cancel: answer.cancel,
            executed: 0,
            booked: 0,
            cancelled: 0,
            fills: vec![0; fills_length],
        }
    }
}

pub fn check(crossing: &Crossing) -> CrossingAnswer {
    let QuoteAnswer { number, cancel } = quote_check::check(&crossing.quote);
    let numbers = [
        (number, number != ACCEPTED),
        (BAD_CROSSING, !is_within_limits(crossing)),
    ];
    let answer = match first(&numbers) {
        None => return executed(crossing),
        Some(BAD_CROSSING) => QuoteAnswer {
            number: BAD_CROSSING,
            cancel: 0,
        },
        Some(_) => QuoteAnswer { number, cancel },
    };
    CrossingAnswer::nothing(answer, crossing.fills_length)
}

fn is_within_limits(crossing: &Crossing) -> bool {
    let Crossing { prices, sizes, .. } = crossing;
    let fits = prices.len() <= MOST_RESTING.min(crossing.fills_length);
    let away = Some(crossing.away).filter(|&away| away != 0);
    let are_prices = prices.iter().chain(&away).all(|one| PRICES.contains(one));
    let are_sizes = sizes.iter().all(|one| SIZES.contains(one)) && SIZES.contains(&crossing.size);
    prices.len() == sizes.len() && fits && are_prices && are_sizes && is_in_sequence(crossing)
}

/// What is sorted already, without one twice, is as it was after both.
fn is_in_sequence(crossing: &Crossing) -> bool {
    let prices = crossing.prices.iter().map(|&price| crossing.signed(price));
    let sorted: BTreeSet<i128> = prices.clone().collect();
    sorted.into_iter().eq(prices)
}

/// Of a quote that is accepted, with a list within its limits.
fn executed(crossing: &Crossing) -> CrossingAnswer {
    let own = crossing.signed(crossing.own_price());
    let away = (crossing.away != 0).then(|| crossing.signed(crossing.away));
    let last = away.map_or(own, |away| own.min(away));
    let prices = crossing.prices.iter().map(|&price| crossing.signed(price));
    let executed_below = |limit: i128| {
        let resting = prices.clone().zip(&crossing.sizes);
        let met = resting.filter(|(price, _)| *price < limit && *price <= last);
        let depth: u64 = met.map(|(_, size)| size).sum();
        depth.min(crossing.size)
    };
    let executed = executed_below(last + 1);
    let rest = crossing.size - executed;
    let is_booked = away.is_none_or(|away| own < away);
    let mut fills: Vec<u64> = prices
        .clone()
        .map(|price| executed_below(price + 1) - executed_below(price))
        .collect();
    fills.resize(crossing.fills_length, 0);
    CrossingAnswer {
        number: ACCEPTED,
        cancel: 0,
        executed,
        booked: if is_booked { rest } else { 0 },
        cancelled: if is_booked { 0 } else { rest },
        fills,
    }
}

/// The quote's words, four numbers, prices, sizes.
impl fmt::Display for Crossing {
    fn fmt(&self, f: &mut fmt::Formatter) -> fmt::Result {
        let fills_length = self.fills_length as u64;
        write!(
            f,
            "{CROSSING} {} {} {} {}",
            self.quote,
            list(&[self.sell, self.size, self.away, fills_length]),
            list(&self.prices),
            list(&self.sizes)
        )
    }
}

impl FromStr for Crossing {
    type Err = String;

    fn from_str(line: &str) -> Result<Self, String> {
        let parts = line.trim().strip_prefix(CROSSING).unwrap_or_default();
        let parts: Vec<&str> = parts.rsplitn(4, ' ').collect();
        let [sizes, prices, terms, quote] = parts[..] else {
            return Err(format!("not '{CROSSING}', a quote, three words: {line}"));
        };
        let [sell, size, away, fills_length] = just(terms)?;
        Ok(Crossing {
            quote: quote.parse()?,
            sell,
            size,
            prices: numbers(prices)?,
            sizes: numbers(sizes)?,
            away,
            fills_length: fills_length as usize,
        })
    }
}
