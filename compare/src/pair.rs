//! An auction pair (document 02, S-2): what one call is handed and answers, a line of text for it,
//! and the second implementation. No condition there names both numbers: the sides stand in groups,
//! one after the other, and pass up to the first group in which an order fails. A pair is one group
//! of both sides; one marked to continue unpaired is its agency order, then its contra order.

use crate::{arrival::Arrival, numbers::ACCEPTED, order, text::list};
use std::{fmt, str::FromStr};

/// The first word of a line that holds a pair.
pub const PAIR: &str = "pair";

/// The place of each side.
const AGENCY: usize = 0;
const CONTRA: usize = 1;

/// Everything that one call is handed: each order as it would arrive alone. The settings and the
/// market are those of the agency order; the contra order's own count for nothing.
#[derive(Clone, Debug, PartialEq, Eq)]
pub struct Pair {
    pub agency: Arrival,
    pub contra: Arrival,
    /// Whether the agency order may pass though its contra order fails.
    pub continue_unpaired: u64,
}

/// The whole answer to a pair: both own numbers, that of the agency order first, and 1 for a side
/// that passes, else 0.
#[repr(C)]
#[derive(Clone, Copy, Debug, PartialEq, Eq)]
pub struct PairAnswer {
    pub agency_number: u64,
    pub contra_number: u64,
    pub agency_passes: u64,
    pub contra_passes: u64,
}

pub fn check(pair: &Pair) -> PairAnswer {
    let numbers = pair.orders().map(|order| order::check(&order).number);
    answer(numbers, pair.continue_unpaired)
}

/// The answer to a pair whose orders, the agency order first, get some numbers alone.
pub fn answer(numbers: [u64; 2], continue_unpaired: u64) -> PairAnswer {
    let groups: &[&[usize]] = match continue_unpaired {
        0 => &[&[AGENCY, CONTRA]],
        _ => &[&[AGENCY], &[CONTRA]],
    };
    let is_accepted = |group: &&&[usize]| group.iter().all(|&side| numbers[side] == ACCEPTED);
    let mut passes = [0; 2];
    for &side in groups.iter().take_while(is_accepted).copied().flatten() {
        passes[side] = 1;
    }
    PairAnswer {
        agency_number: numbers[AGENCY],
        contra_number: numbers[CONTRA],
        agency_passes: passes[AGENCY],
        contra_passes: passes[CONTRA],
    }
}

impl Pair {
    /// Two orders, both under the settings and the market of the agency order.
    pub fn of(agency: &Arrival, contra: &Arrival, continue_unpaired: u64) -> Self {
        Pair {
            agency: agency.clone(),
            contra: contra.under(&agency.settings, &agency.market),
            continue_unpaired,
        }
    }

    /// Each order as it would arrive alone, the agency order first.
    pub fn orders(&self) -> [Arrival; 2] {
        let Pair { agency, contra, .. } = self;
        let contra = contra.under(&agency.settings, &agency.market);
        [agency.clone(), contra]
    }
}

/// Fourteen words: that it is a pair, the mark, five of the agency order, five of the contra order,
/// settings, market.
impl fmt::Display for Pair {
    fn fmt(&self, f: &mut fmt::Formatter) -> fmt::Result {
        write!(
            f,
            "{PAIR} {} {} {} {} {}",
            self.continue_unpaired,
            self.agency.order_as_text(),
            self.contra.order_as_text(),
            list(&self.agency.settings),
            list(&self.agency.market)
        )
    }
}

impl FromStr for Pair {
    type Err = String;

    fn from_str(line: &str) -> Result<Self, String> {
        let words: Vec<&str> = line.split_whitespace().collect();
        let [PAIR, mark, sides @ .., settings, market] = &words[..] else {
            return Err(format!("not '{PAIR}' and thirteen words: {line}"));
        };
        let order = |side: &[&str]| format!("{} {settings} {market}", side.join(" ")).parse();
        let (agency, contra) = sides.split_at(sides.len() / 2);
        let mark = mark.parse().map_err(|_| format!("mark {mark}"))?;
        Ok(Pair::of(&order(agency)?, &order(contra)?, mark))
    }
}
