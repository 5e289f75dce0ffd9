//! The numbers of document 01, Number and its author, and of document 02, S-1, S-4, S-6 and S-7:
//! each once, with its kind and of what it can be said, and which of them comes first.

use Kind::{Accepted, Refused, Rejected};
use Of::{Crossing, Message, Order, Quote, Release, Session, Start, Symbol, Tally};

#[derive(Clone, Copy, Debug, PartialEq, Eq, PartialOrd, Ord)]
pub enum Kind {
    Accepted,
    Refused,
    Rejected,
}

/// Of a symbol it is said by the reader or the writer. Of a tallied order or message all is said
/// that is said of one without a tally, and more of its tally. Of either order of a pair the same is
/// said as of an order. Of an order or a message in a session all is said that is said of one
/// without, and more of its login and its session; a start and a release have their own. Of a
/// crossing quote all is said that is said of a quote, and more of what it meets.
#[derive(Clone, Copy, Debug, PartialEq, Eq)]
pub enum Of {
    Symbol,
    Order,
    Message,
    Tally,
    Session,
    Start,
    Release,
    Quote,
    Crossing,
}

pub const ACCEPTED: u64 = 0;
pub const NOT_21_BYTES: u64 = 1;
pub const SHORT_BUFFER: u64 = 2;
pub const BAD_SYMBOL: u64 = 4;
pub const BAD_SETTING: u64 = 9;
pub const BAD_MARKET: u64 = 10;
pub const BAD_TALLY: u64 = 12;
pub const BAD_FRAME: u64 = 30;
pub const BAD_TAGS: u64 = 31;
pub const BAD_VALUE: u64 = 32;
pub const BAD_SHARES: u64 = 33;
pub const BAD_LOGIN: u64 = 34;
pub const RESTRICTED_LOGIN: u64 = 35;
pub const BAD_CROSSING: u64 = 36;

/// In the sequence in which they are given: the first that applies, and 0 where no other does. Of
/// messages 33 is never said, since an order has no shares there.
const ALL: [(u64, Kind, &[Of]); 27] = [
    (BAD_LOGIN, Refused, &[Session, Release]),
    (BAD_TALLY, Refused, &[Tally, Session, Start, Release]),
    (RESTRICTED_LOGIN, Refused, &[Session]),
    (BAD_FRAME, Refused, &[Message]),
    (BAD_TAGS, Refused, &[Message]),
    (BAD_VALUE, Refused, &[Message]),
    (NOT_21_BYTES, Refused, &[Symbol, Order, Quote]),
    (SHORT_BUFFER, Refused, &[Symbol]),
    (3, Refused, &[Order, Message]),
    (BAD_SYMBOL, Refused, &[Symbol, Order, Message, Quote]),
    (5, Refused, &[Order, Message]),
    (6, Refused, &[Order, Message]),
    (7, Refused, &[Order, Message]),
    (8, Refused, &[Order, Message]),
    (BAD_SHARES, Refused, &[Order]),
    (BAD_SETTING, Refused, &[Order, Message, Start, Quote]),
    (BAD_MARKET, Refused, &[Order, Message, Quote]),
    (11, Refused, &[Quote]),
    (BAD_CROSSING, Refused, &[Crossing]),
    (20, Rejected, &[Order, Message, Quote]),
    (21, Rejected, &[Order, Message, Quote]),
    (22, Rejected, &[Order, Message]),
    (23, Rejected, &[Order, Message]),
    (24, Rejected, &[Order, Message]),
    (25, Rejected, &[Order, Message]),
    (26, Rejected, &[Quote]),
    (
        ACCEPTED,
        Accepted,
        &[Symbol, Order, Message, Start, Release, Quote],
    ),
];

fn place(number: u64) -> usize {
    let place = ALL.iter().position(|row| row.0 == number);
    place.unwrap_or_else(|| panic!("the documents have no number {number}"))
}

pub fn kind(number: u64) -> Kind {
    ALL[place(number)].1
}

/// Of some numbers, each with whether it applies, the one that is given.
pub fn first(numbers: &[(u64, bool)]) -> Option<u64> {
    let applying = numbers.iter().filter(|(_, applies)| *applies);
    applying
        .map(|(number, _)| *number)
        .min_by_key(|&number| place(number))
}

/// Every number that can be said of something.
pub fn of(what: Of) -> Vec<u64> {
    let rows = ALL.iter().filter(|(_, _, said_of)| said_of.contains(&what));
    rows.map(|row| row.0).collect()
}
