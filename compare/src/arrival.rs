//! One arrival: everything that one call of the order check is handed, and what it answers. An
//! arrival can be written as one line of text and read back, so that a case can be run again.

use crate::{
    slices::{EXAMPLE_MARKET, EXAMPLE_SETTINGS},
    text::{bytes, hexadecimal, just, list, numbers},
};
use std::{fmt, str::FromStr};

/// A leg to arrive: its 21 symbol bytes and its count.
pub type RawLeg = ([u8; 21], i64);

/// Everything that one call is handed. The slices may hold anything and be of any length.
#[derive(Clone, Debug, PartialEq, Eq)]
pub struct Arrival {
    pub symbols: Vec<u8>,
    pub counts: Vec<u8>,
    pub price: i64,
    pub kind: u64,
    pub stop: u64,
    pub manual: u64,
    pub opening: u64,
    /// Positive bought, negative sold, 0 none.
    pub shares: i64,
    pub settings: Vec<u64>,
    pub market: Vec<u64>,
}

/// The whole answer of the order check.
#[repr(C)]
#[derive(Clone, Copy, Debug, PartialEq, Eq)]
pub struct Answer {
    pub number: u64,
    pub class: u64,
    pub shape: u64,
    pub pairings: u64,
}

impl Answer {
    /// A refusal, which has no class, shape or pairings.
    pub const fn refusal(number: u64) -> Self {
        Answer {
            number,
            class: 0,
            shape: 0,
            pairings: 0,
        }
    }
}

impl Arrival {
    /// A limit order without flags or shares, under the settings and market that head the examples.
    pub fn limit(legs: &[RawLeg], price: i64) -> Self {
        Arrival {
            symbols: legs.iter().flat_map(|(symbol, _)| *symbol).collect(),
            counts: legs.iter().flat_map(|(_, n)| n.to_le_bytes()).collect(),
            price,
            kind: 0,
            stop: 0,
            manual: 0,
            opening: 0,
            shares: 0,
            settings: EXAMPLE_SETTINGS.to_vec(),
            market: EXAMPLE_MARKET.to_vec(),
        }
    }

    /// The same order with other legs.
    pub fn with_legs(&self, legs: &[RawLeg]) -> Self {
        let Arrival {
            symbols, counts, ..
        } = Arrival::limit(legs, 0);
        Arrival {
            symbols,
            counts,
            ..self.clone()
        }
    }

    /// The same order under other settings and another market.
    pub fn under(&self, settings: &[u64], market: &[u64]) -> Self {
        Arrival {
            settings: settings.to_vec(),
            market: market.to_vec(),
            ..self.clone()
        }
    }

    /// The legs, whole ones only.
    pub fn legs(&self) -> Vec<RawLeg> {
        let counts = self.counts.chunks_exact(8);
        let counts = counts.map(|bytes| i64::from_le_bytes(bytes.try_into().expect("8 bytes")));
        let symbols = self.symbols.chunks_exact(21);
        let symbols = symbols.map(|bytes| bytes.try_into().expect("21 bytes"));
        symbols.zip(counts).collect()
    }

    /// The legs as text for a reader.
    pub fn legs_as_text(&self) -> String {
        let legs = self.legs();
        let legs = legs
            .iter()
            .map(|(symbol, count)| format!("{count} of \"{}\"", symbol.escape_ascii()));
        legs.collect::<Vec<_>>().join(", ")
    }

    /// The same order with so many shares.
    pub fn with_shares(&self, shares: i64) -> Self {
        Arrival {
            shares,
            ..self.clone()
        }
    }

    /// Five words: symbol bytes and count bytes in hexadecimal, price, kind and flags, shares. A
    /// dash stands for an empty slice.
    pub fn order_as_text(&self) -> String {
        let order = list(&[self.kind, self.stop, self.manual, self.opening]);
        let (symbols, counts) = (hexadecimal(&self.symbols), hexadecimal(&self.counts));
        format!("{symbols} {counts} {} {order} {}", self.price, self.shares)
    }
}

/// Seven words: those of the order, settings, market.
impl fmt::Display for Arrival {
    fn fmt(&self, f: &mut fmt::Formatter) -> fmt::Result {
        let (settings, market) = (list(&self.settings), list(&self.market));
        write!(f, "{} {settings} {market}", self.order_as_text())
    }
}

impl FromStr for Arrival {
    type Err = String;

    fn from_str(line: &str) -> Result<Self, String> {
        let words: Vec<&str> = line.split_whitespace().collect();
        let [symbols, counts, price, order, shares, settings, market] = words[..] else {
            return Err(format!("{} words instead of seven", words.len()));
        };
        let [kind, stop, manual, opening] = just(order)?;
        Ok(Arrival {
            symbols: bytes(symbols)?,
            counts: bytes(counts)?,
            price: price.parse().map_err(|_| format!("price {price}"))?,
            kind,
            stop,
            manual,
            opening,
            shares: shares.parse().map_err(|_| format!("shares {shares}"))?,
            settings: numbers(settings)?,
            market: numbers(market)?,
        })
    }
}
