//! One quote: everything that one call of the quote check is handed, and what it answers. Like an
//! arrival it can be written as one line of text and read back.

use crate::{
    slices::{EXAMPLE_MARKET, EXAMPLE_SETTINGS},
    text::{bytes, hexadecimal, just, list, numbers},
};
use std::{fmt, str::FromStr};

/// The first word of a line that holds a quote.
pub const QUOTE: &str = "quote";

/// Everything that one call is handed. The slices may hold anything and be of any length.
#[derive(Clone, Debug, PartialEq, Eq)]
pub struct Quote {
    pub symbol: Vec<u8>,
    pub bid: u64,
    pub offer: u64,
    /// Whether a quote is resting already.
    pub resting: u64,
    pub settings: Vec<u64>,
    pub market: Vec<u64>,
}

/// The whole answer of the quote check.
#[repr(C)]
#[derive(Clone, Copy, Debug, PartialEq, Eq)]
pub struct QuoteAnswer {
    pub number: u64,
    pub cancel: u64,
}

impl Quote {
    /// A first quote, under the settings and market that head document 01's examples.
    pub fn new(symbol: &[u8], bid: u64, offer: u64) -> Self {
        Quote {
            symbol: symbol.to_vec(),
            bid,
            offer,
            resting: 0,
            settings: EXAMPLE_SETTINGS.to_vec(),
            market: EXAMPLE_MARKET.to_vec(),
        }
    }
}

/// Five words: that it is a quote, symbol bytes in hexadecimal, bid, offer and resting, settings,
/// market. A dash stands for an empty slice.
impl fmt::Display for Quote {
    fn fmt(&self, f: &mut fmt::Formatter) -> fmt::Result {
        write!(
            f,
            "{QUOTE} {} {} {} {}",
            hexadecimal(&self.symbol),
            list(&[self.bid, self.offer, self.resting]),
            list(&self.settings),
            list(&self.market)
        )
    }
}

impl FromStr for Quote {
    type Err = String;

    fn from_str(line: &str) -> Result<Self, String> {
        let words: Vec<&str> = line.split_whitespace().collect();
        let [QUOTE, symbol, quote, settings, market] = words[..] else {
            return Err(format!("not '{QUOTE}' and four words: {line}"));
        };
        let [bid, offer, resting] = just(quote)?;
        Ok(Quote {
            symbol: bytes(symbol)?,
            bid,
            offer,
            resting,
            settings: numbers(settings)?,
            market: numbers(market)?,
        })
    }
}
