//! The proved library beside a second implementation of the same rules, in the same types, so that
//! a test can put one question to both.
//!
//! `unit` is the library. `numbers` has every number with its kind, `slices` the names of settings,
//! market and a login's numbers. The second implementation is `osi` for symbols, `order`, with
//! `pairing`, `shape`, `class` and `checks` below it, for orders, `fix` for messages, `tally` for
//! tallied ones of both, `session` for those of logins, `pair` for auction pairs, `quote_check` for
//! quotes, and `crossing` for what they would execute. `cases` reads those of the repository's files,
//! `generate` and `limits` make others up, and `run` puts them to both and counts.
#![deny(unsafe_code)]

pub mod arrival;
pub mod case;
pub mod cases;
pub mod checks;
pub mod class;
pub mod crossing;
pub mod fix;
pub mod generate;
pub mod legs;
pub mod limits;
pub mod message;
pub mod numbers;
pub mod order;
pub mod osi;
pub mod pair;
pub mod pairing;
pub mod quote;
pub mod quote_check;
pub mod random;
pub mod run;
pub mod series;
pub mod session;
pub mod shape;
pub mod slices;
pub mod tally;
pub mod text;
#[allow(unsafe_code)] // calls through C
pub mod unit;

/// The bytes of a symbol.
pub const SYMBOL_LENGTH: usize = 21;

/// The parts of a symbol as the C face carries them: `root` is its six bytes as one number, the
/// first byte highest; `option_type` is the byte `C` or `P`; `strike` is in mills.
#[repr(C)]
#[derive(Clone, Copy, Debug, Default, PartialEq, Eq)]
pub struct Parts {
    pub root: u64,
    pub year: u64,
    pub month: u64,
    pub day: u64,
    pub option_type: u64,
    pub strike: u64,
}

/// A reader's whole answer.
#[derive(Clone, Copy, Debug, PartialEq, Eq)]
pub struct Read {
    pub number: u64,
    pub parts: Parts,
}

/// A writer's answer, beside the bytes that it leaves in the buffer.
#[derive(Clone, Copy, Debug, PartialEq, Eq)]
pub struct Written {
    pub number: u64,
    pub length: u64,
}
