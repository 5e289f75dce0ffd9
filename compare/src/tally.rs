//! The tallied check: what one call is handed and answers, a line of text for it, and the second
//! implementation. No number is added to `seen` there: the order is put to its kind, and `seen` is
//! what all kinds come to. What arrives is an order on slices, or a message with one.

use crate::{
    arrival::{Answer, Arrival},
    case::Case,
    numbers::{kind, Kind, BAD_TALLY},
    text::{just, list},
};
use std::{fmt, str::FromStr};

/// The first word of a line that holds a tallied check.
pub const TALLIED: &str = "tallied";

const MOST_SEEN: i128 = 1_000_000;

#[repr(C)]
#[derive(Clone, Copy, Debug, Default, PartialEq, Eq)]
pub struct Tally {
    pub seen: u64,
    pub refused: u64,
    pub accepted: u64,
    pub rejected: u64,
}

/// Everything that one tallied check is handed.
#[derive(Clone, Debug, PartialEq, Eq)]
pub struct Tallied<A = Arrival> {
    pub arrival: A,
    pub tally: Tally,
}

/// The whole answer of the tallied check, with the tally that it leaves.
#[derive(Clone, Copy, Debug, PartialEq, Eq)]
pub struct TalliedAnswer {
    pub answer: Answer,
    pub tally: Tally,
}

pub fn check<A: Case<Answer = Answer>>(tallied: &Tallied<A>) -> TalliedAnswer {
    add(tallied.tally, tallied.arrival.second())
}

/// The tallied check of an order that gets some answer without a tally.
pub fn add(tally: Tally, answer: Answer) -> TalliedAnswer {
    let mut kinds = [tally.refused, tally.accepted, tally.rejected].map(i128::from);
    let together: i128 = kinds.iter().sum();
    if together != tally.seen.into() || together >= MOST_SEEN {
        return TalliedAnswer {
            answer: Answer::refusal(BAD_TALLY),
            tally,
        };
    }
    kinds[match kind(answer.number) {
        Kind::Refused => 0,
        Kind::Accepted => 1,
        Kind::Rejected => 2,
    }] += 1;
    let [refused, accepted, rejected] = kinds.map(|times| times as u64);
    TalliedAnswer {
        answer,
        tally: Tally {
            seen: refused + accepted + rejected,
            refused,
            accepted,
            rejected,
        },
    }
}

impl Tally {
    pub fn numbers(&self) -> [u64; 4] {
        [self.seen, self.refused, self.accepted, self.rejected]
    }

    pub fn of_numbers([seen, refused, accepted, rejected]: [u64; 4]) -> Self {
        Tally {
            seen,
            refused,
            accepted,
            rejected,
        }
    }
}

/// That it is tallied, the words of what arrives, and the tally.
impl<A: fmt::Display> fmt::Display for Tallied<A> {
    fn fmt(&self, f: &mut fmt::Formatter) -> fmt::Result {
        let tally = list(&self.tally.numbers());
        write!(f, "{TALLIED} {} {tally}", self.arrival)
    }
}

impl<A: FromStr<Err = String>> FromStr for Tallied<A> {
    type Err = String;

    fn from_str(line: &str) -> Result<Self, String> {
        let parts = line.trim().strip_prefix(TALLIED);
        let Some((arrival, tally)) = parts.and_then(|parts| parts.rsplit_once(' ')) else {
            return Err(format!("not '{TALLIED}', an arrival and a tally: {line}"));
        };
        Ok(Tallied {
            arrival: arrival.parse()?,
            tally: Tally::of_numbers(just(tally)?),
        })
    }
}
