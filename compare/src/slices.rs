//! Settings, market and a login's row of a session as they are lent: slices of numbers, which may be
//! of any length. In a slice of the right length every place has a name: those of the C structs, in
//! the same sequence.

/// Names the places of a slice from the first on, and lists the names.
macro_rules! places {
    ($($name:ident)*) => {
        #[allow(non_camel_case_types, clippy::upper_case_acronyms)]
        enum Place { $($name),* }
        $(pub const $name: usize = Place::$name as usize;)*
        pub const NAMES: &[&str] = &[$(stringify!($name)),*];
        pub const LENGTH: usize = NAMES.len();
    };
}

pub mod setting {
    places! {
        CHECK_20 CHECK_21 CHECK_22 CHECK_23 CHECK_24 CHECK_25 CHECK_26
        TICK_BELOW_3000 TICK_FROM_3000 NET_INCREMENT
        ATD_BELOW_1000 ATD_TO_2999 ATD_TO_9999 ATD_FROM_10000
        PERCENTAGE PRESET_MINIMUM PRESET_MAXIMUM SET_TICKS ADJUSTED EUROPEAN_INDEX
    }
}

pub mod market {
    places! {
        PHASE OPEN_ELSEWHERE EXTENDED_HOURS
        UNDERLYING NBB NBO OWN_BID OWN_OFFER PREVIOUS_CLOSE
    }

    pub const PRE_OPENING: u64 = 0;
    pub const OPEN: u64 = 1;
    pub const HALT: u64 = 2;
}

pub mod login {
    places! { LIMIT SEEN REFUSED ACCEPTED REJECTED RUNNING }
}

/// The settings that head document 01's examples.
#[rustfmt::skip]
pub const EXAMPLE_SETTINGS: [u64; setting::LENGTH] = [
    1, 1, 1, 1, 1, 1, 1, // every check is on
    10, 10, 10, // both ticks, and the net increment
    5, 5, 5, 5, // the ATDs
    300, 0, 600, // the percentage and the presets
    4, // set ticks
    0, 0, // neither adjusted nor European index
];

/// The market that heads document 01's examples: open, and every value missing.
pub const EXAMPLE_MARKET: [u64; market::LENGTH] = [market::OPEN, 0, 0, 0, 0, 0, 0, 0, 0];

/// The numbers with their names, for a reader; those beyond the last name have none.
pub fn described(names: &[&str], numbers: &[u64]) -> String {
    let names = names.iter().copied().chain(std::iter::repeat(""));
    let words = names
        .zip(numbers)
        .map(|(name, number)| format!("{name} {number}"));
    words.collect::<Vec<_>>().join(", ").to_lowercase()
}
