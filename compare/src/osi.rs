//! Option symbols from the published 21-byte layout, as text.
//!
//! The proved code tests ranges of bytes, adds up digits by place and looks month lengths up. So
//! that no mistake can be shared, nothing here does: fields are split off as strings, numerals go
//! through the standard library and back, a day exists if counting days and back returns to it, and
//! parts are inside the layout if the text made of them reads back as the same parts.

use crate::{
    numbers::{ACCEPTED, BAD_SYMBOL, NOT_21_BYTES, SHORT_BUFFER},
    Parts, Read, Written, SYMBOL_LENGTH,
};

const LETTERS: &str = "ABCDEFGHIJKLMNOPQRSTUVWXYZ";
const DIGITS: &str = "0123456789";

pub fn read(symbol: &[u8]) -> Read {
    if symbol.len() != SYMBOL_LENGTH {
        return refusal(NOT_21_BYTES);
    }
    let text = std::str::from_utf8(symbol).ok();
    text.and_then(parts_of)
        .map_or(refusal(BAD_SYMBOL), |parts| Read {
            number: ACCEPTED,
            parts,
        })
}

pub fn write(parts: &Parts, out: &mut [u8]) -> Written {
    if out.len() < SYMBOL_LENGTH {
        return Written {
            number: SHORT_BUFFER,
            length: 0,
        };
    }
    let text = text_of(parts).filter(|text| parts_of(text) == Some(*parts));
    let Some(text) = text else {
        return Written {
            number: BAD_SYMBOL,
            length: 0,
        };
    };
    out[..text.len()].copy_from_slice(text.as_bytes());
    Written {
        number: ACCEPTED,
        length: text.len() as u64,
    }
}

fn refusal(number: u64) -> Read {
    Read {
        number,
        parts: Parts::default(),
    }
}

/// The parts that a text stands for, if it is a symbol.
fn parts_of(text: &str) -> Option<Parts> {
    if text.len() != SYMBOL_LENGTH {
        return None;
    }
    // `get` gives nothing where a field would begin or end inside a longer character.
    let parts = Parts {
        root: root_number(text.get(0..6)?)?,
        year: 2000 + numeral(text.get(6..8)?)?,
        month: numeral(text.get(8..10)?)?,
        day: numeral(text.get(10..12)?)?,
        option_type: match text.get(12..13)? {
            "C" => u64::from(b'C'),
            "P" => u64::from(b'P'),
            _ => return None,
        },
        strike: numeral(text.get(13..21)?).filter(|&strike| strike != 0)?,
    };
    day_exists(parts.year, parts.month, parts.day).then_some(parts)
}

/// The text that the layout gives for some parts; not a symbol if one of them does not fit its
/// field, since a number too wide for its field makes the text longer.
fn text_of(parts: &Parts) -> Option<String> {
    let root = root_text(parts.root)?;
    let option_type = char::from_u32(u32::try_from(parts.option_type).ok()?)?;
    Some(format!(
        "{:<6}{:02}{:02}{:02}{}{:08}",
        root.trim_end(),
        parts.year % 100,
        parts.month,
        parts.day,
        option_type,
        parts.strike
    ))
}

/// A root of six bytes as one number, if it is one.
fn root_number(field: &str) -> Option<u64> {
    let name = field.trim_end_matches(' ');
    let mut characters = name.chars();
    let letter_first = LETTERS.contains(characters.next()?);
    let rest_fits = characters.all(|c| LETTERS.contains(c) || DIGITS.contains(c));
    let &[a, b, c, d, e, f] = field.as_bytes() else {
        return None;
    };
    (letter_first && rest_fits).then_some(u64::from_be_bytes([0, 0, a, b, c, d, e, f]))
}

/// The six bytes of a number as text, if it is no larger and they are text.
fn root_text(number: u64) -> Option<String> {
    match number.to_be_bytes() {
        [0, 0, six @ ..] => String::from_utf8(six.to_vec()).ok(),
        _ => None,
    }
}

/// The value of a field of digits. The standard library also takes a sign, which writing the value
/// again and comparing refuses.
fn numeral(field: &str) -> Option<u64> {
    let value = field.parse::<u64>().ok()?;
    (format!("{value:0width$}", width = field.len()) == field).then_some(value)
}

/// Whether a date is in the Gregorian calendar: the day number of a date that does not exist is
/// that of a date that does, and comes back as the latter.
fn day_exists(year: u64, month: u64, day: u64) -> bool {
    let (Ok(y), Ok(m), Ok(d)) = (
        i32::try_from(year),
        i32::try_from(month),
        i32::try_from(day),
    ) else {
        return false;
    };
    date_of(day_number(y.into(), m.into(), d.into())) == (y.into(), m.into(), d.into())
}

const DAYS_IN_400_YEARS: i64 = 146_097;

/// Days since 1 March of year 0. Years are counted from March, so that the day that comes and goes
/// is the last one, and from there the months' lengths repeat every five months, of 153 days.
fn day_number(year: i64, month: i64, day: i64) -> i64 {
    let from_march = (month + 9).rem_euclid(12);
    let year = year + (month + 9).div_euclid(12) - 1;
    let leap_days = year.div_euclid(4) - year.div_euclid(100) + year.div_euclid(400);
    year * 365 + leap_days + (from_march * 153 + 2).div_euclid(5) + day - 1
}

/// The date with a day number: year, month, day.
fn date_of(number: i64) -> (i64, i64, i64) {
    let era = number.div_euclid(DAYS_IN_400_YEARS);
    let in_era = number.rem_euclid(DAYS_IN_400_YEARS);
    let year_of_era = (in_era - in_era / 1_460 + in_era / 36_524 - in_era / 146_096) / 365;
    let in_year = in_era - (year_of_era * 365 + year_of_era / 4 - year_of_era / 100);
    let from_march = (in_year * 5 + 2) / 153;
    let day = in_year - (from_march * 153 + 2) / 5 + 1;
    let month = (from_march + 2) % 12 + 1;
    let year = era * 400 + year_of_era + i64::from(month <= 2);
    (year, month, day)
}

#[cfg(test)]
mod tests {
    use super::*;

    /// The calendar by itself, over 400 years: each day number has one date, each date follows the
    /// one before, and known days are where they should be.
    #[test]
    fn calendar_counts_every_day_once() {
        let first = day_number(1900, 1, 1);
        let mut before = (1899, 12, 31);
        for number in first..first + DAYS_IN_400_YEARS {
            let date = date_of(number);
            let (year, month, day) = date;
            assert_eq!(day_number(year, month, day), number, "{date:?}");
            let next_day = date == (before.0, before.1, before.2 + 1);
            let next_month = date == (before.0, before.1 + 1, 1) && before.2 >= 28;
            let next_year = date == (before.0 + 1, 1, 1) && (before.1, before.2) == (12, 31);
            assert!(next_day || next_month || next_year, "{before:?} {date:?}");
            before = date;
        }
        assert_eq!(before, (2299, 12, 31));
    }

    #[test]
    fn known_days() {
        assert_eq!(day_number(1970, 1, 1) - day_number(2000, 1, 1), -10_957);
        assert!(day_exists(2000, 2, 29) && day_exists(2096, 2, 29));
        assert!(!day_exists(1900, 2, 29) && !day_exists(2001, 2, 29) && !day_exists(2100, 2, 29));
        assert!(!day_exists(2000, 4, 31) && !day_exists(2000, 13, 1) && !day_exists(2000, 0, 1));
    }
}
