//! One message: everything that one call of the check of messages is handed. It is answered as an
//! order is. Like an arrival it can be written as one line of text and read back.

use crate::{
    arrival::Arrival,
    text::{bytes, hexadecimal, just, list, numbers},
};
use std::{fmt, str::FromStr};

/// The first word of a line that holds a message.
pub const MESSAGE: &str = "message";

/// The byte that ends a field.
pub const END: u8 = 1;

/// Everything that one call is handed. The slices may hold anything and be of any length.
#[derive(Clone, Debug, PartialEq, Eq)]
pub struct Message {
    pub bytes: Vec<u8>,
    pub stop: u64,
    pub manual: u64,
    pub opening: u64,
    pub settings: Vec<u64>,
    pub market: Vec<u64>,
}

impl Message {
    /// Without flags, under the settings and market that head document 01's examples.
    pub fn new(bytes: Vec<u8>) -> Self {
        Message::beside(&Arrival::limit(&[], 0), bytes)
    }

    /// With the flags, settings and market of an order.
    pub fn beside(arrival: &Arrival, bytes: Vec<u8>) -> Self {
        Message {
            bytes,
            stop: arrival.stop,
            manual: arrival.manual,
            opening: arrival.opening,
            settings: arrival.settings.clone(),
            market: arrival.market.clone(),
        }
    }

    /// The bytes for a reader, with a bar at the end of a field.
    pub fn as_text(&self) -> String {
        let escaped = self.bytes.escape_ascii().to_string();
        escaped.replace("\\x01", "|")
    }
}

/// Five words: that it is a message, its bytes in hexadecimal, flags, settings, market. A dash
/// stands for an empty slice.
impl fmt::Display for Message {
    fn fmt(&self, f: &mut fmt::Formatter) -> fmt::Result {
        write!(
            f,
            "{MESSAGE} {} {} {} {}",
            hexadecimal(&self.bytes),
            list(&[self.stop, self.manual, self.opening]),
            list(&self.settings),
            list(&self.market)
        )
    }
}

impl FromStr for Message {
    type Err = String;

    fn from_str(line: &str) -> Result<Self, String> {
        let words: Vec<&str> = line.split_whitespace().collect();
        let [MESSAGE, message, flags, settings, market] = words[..] else {
            return Err(format!("not '{MESSAGE}' and four words: {line}"));
        };
        let [stop, manual, opening] = just(flags)?;
        Ok(Message {
            bytes: bytes(message)?,
            stop,
            manual,
            opening,
            settings: numbers(settings)?,
            market: numbers(market)?,
        })
    }
}
