//! The cases that every implementation is held to: the files `cases/*.desk`, lines of the desk's
//! form (`host/desk --help`), each order, message, pair, quote and crossing quote with its expected
//! answer after `#=`.
//!
//! A line that cannot be read is an error with its place, and so is an order, a message, a pair, a
//! quote or a crossing quote without an answer: no case is passed over.

use crate::{
    arrival::{Answer, Arrival, RawLeg},
    case::Case,
    crossing::{Crossing, CrossingAnswer},
    message::{Message, END},
    numbers::{self, kind, Kind, Of, ACCEPTED},
    pair::{Pair, PairAnswer},
    quote::{Quote, QuoteAnswer},
    slices::{market, setting, EXAMPLE_MARKET, EXAMPLE_SETTINGS},
    text::{mills, whole},
    SYMBOL_LENGTH,
};
use std::{fs, path::Path, str};

/// A case with its whole answer, and where it stands.
pub struct Expected<C: Case> {
    pub place: String,
    pub case: C,
    pub answer: C::Answer,
}

#[derive(Default)]
pub struct Cases {
    pub orders: Vec<Expected<Arrival>>,
    pub messages: Vec<Expected<Message>>,
    pub pairs: Vec<Expected<Pair>>,
    pub quotes: Vec<Expected<Quote>>,
    pub crossings: Vec<Expected<Crossing>>,
}

/// The cases of every file.
pub fn all() -> Cases {
    let folder = Path::new(concat!(env!("CARGO_MANIFEST_DIR"), "/../cases"));
    let entries = fs::read_dir(folder).expect("the folder of cases");
    let mut paths: Vec<_> = entries.map(|entry| entry.expect("a file").path()).collect();
    paths.retain(|path| path.extension().is_some_and(|end| end == "desk"));
    paths.sort();
    let mut cases = Cases::default();
    for path in paths {
        let name = path.file_name().expect("a file has a name");
        let text = fs::read(&path).expect("a file of cases");
        let read = cases.add(&format!("cases/{}", name.display()), &text);
        read.unwrap_or_else(|trouble| panic!("{trouble}"));
    }
    cases
}

impl Cases {
    /// Adds the cases of one file, or says where it cannot be read.
    fn add(&mut self, name: &str, text: &[u8]) -> Result<(), String> {
        let mut terms = Terms::of_examples();
        for (line, number) in text.split(|&byte| byte == b'\n').zip(1..) {
            let line = Rest(line.strip_suffix(b"\r").unwrap_or(line));
            let place = format!("{name}:{number}");
            self.add_line(&place, line, &mut terms)
                .map_err(|trouble| format!("{place}: {trouble}"))?;
        }
        Ok(())
    }

    fn add_line(&mut self, place: &str, mut line: Rest, terms: &mut Terms) -> Result<(), String> {
        let place = place.to_string();
        match line.field() {
            b"order" => self.orders.push(Expected {
                place,
                case: line.order(terms)?,
                answer: line.answer(|text| order_answer(Of::Order, text))?,
            }),
            b"fix" => self.messages.push(Expected {
                place,
                case: line.message(terms)?,
                answer: line.answer(|text| order_answer(Of::Message, text))?,
            }),
            b"pair" => self.pairs.push(Expected {
                place,
                case: line.pair(terms)?,
                answer: line.answer(pair_answer)?,
            }),
            b"quote" => self.quotes.push(Expected {
                place,
                case: line.quote(terms)?,
                answer: line.answer(quote_answer)?,
            }),
            b"cross" => self.crossings.push(line.crossing_case(place, terms)?),
            b"set" => line.set(terms)?,
            b"reset" => line.reset(terms)?,
            b"" => (),
            other => return Err(format!("no line begins with '{}'", other.escape_ascii())),
        }
        Ok(())
    }
}

/// Settings and market for the lines below.
struct Terms {
    settings: Vec<u64>,
    market: Vec<u64>,
}

impl Terms {
    fn of_examples() -> Self {
        Terms {
            settings: EXAMPLE_SETTINGS.to_vec(),
            market: EXAMPLE_MARKET.to_vec(),
        }
    }

    fn named(&mut self, name: &str) -> Option<&mut u64> {
        let settings = setting::NAMES.iter().zip(&mut self.settings);
        let mut all = settings.chain(market::NAMES.iter().zip(&mut self.market));
        all.find_map(|(known, number)| (known.to_lowercase() == name).then_some(number))
    }
}

/// What is left of a line.
struct Rest<'a>(&'a [u8]);

impl<'a> Rest<'a> {
    /// The next field, which stays the next one: empty where the line ends or a comment begins.
    fn peek(&mut self) -> &'a [u8] {
        self.0 = &self.0[length_while(self.0, |byte| BLANKS.contains(byte))..];
        let length = match self.0 {
            [b'#', ..] => 0,
            [b';', ..] => 1,
            line => length_while(line, |byte| !ends_field(byte)),
        };
        &self.0[..length]
    }

    fn field(&mut self) -> &'a [u8] {
        let field = self.peek();
        self.0 = &self.0[field.len()..];
        field
    }

    /// The next field, which is to be there and to be read as something.
    fn take<T>(&mut self, what: &str, read: impl Fn(&'a str) -> Option<T>) -> Result<T, String> {
        let field = self.field();
        let text = str::from_utf8(field).ok();
        let text = text.filter(|text| !["", ";"].contains(text));
        text.and_then(read)
            .ok_or_else(|| format!("{what} cannot be read: '{}'", field.escape_ascii()))
    }

    /// Flags, each set by its word, up to the line's end: no other word may come, and none twice.
    fn flags<const N: usize>(&mut self, words: [&str; N]) -> Result<[u64; N], String> {
        let mut flags = [0; N];
        while !self.peek().is_empty() {
            self.flag(words, &mut flags)?;
        }
        Ok(flags)
    }

    /// Sets the flag of the next word.
    fn flag<const N: usize>(
        &mut self,
        words: [&str; N],
        flags: &mut [u64; N],
    ) -> Result<(), String> {
        let known = |word| words.iter().position(|&known| known == word);
        let place = self.take("a word", |word| known(word).filter(|&at| flags[at] == 0))?;
        flags[place] = 1;
        Ok(())
    }

    fn answer<T>(&mut self, read: impl Fn(&str) -> Option<T>) -> Result<T, String> {
        let text = self.0.strip_prefix(b"#=").ok_or("the answer is missing")?;
        let answer = str::from_utf8(text).ok().and_then(|text| read(text.trim()));
        answer.ok_or_else(|| format!("no answer is '{}'", text.escape_ascii()))
    }

    /// A value with a point is dollars, one without the number itself.
    fn set(&mut self, terms: &mut Terms) -> Result<(), String> {
        let setting = |text: &'a str| {
            let (name, value) = text.split_once('=')?;
            let read: fn(&str) -> Option<u64> = if value.contains('.') { mills } else { whole };
            Some((name, read(value)?))
        };
        loop {
            let (name, value) = self.take("a setting", setting)?;
            let number = terms.named(name);
            *number.ok_or_else(|| format!("nothing is named '{name}'"))? = value;
            if self.peek().is_empty() {
                return Ok(());
            }
        }
    }

    fn reset(&mut self, terms: &mut Terms) -> Result<(), String> {
        [] = self.flags([])?;
        *terms = Terms::of_examples();
        Ok(())
    }

    fn order(&mut self, terms: &Terms) -> Result<Arrival, String> {
        let price = self.take("a price", |text| signed(text, mills))?;
        let mut legs = Vec::new();
        if let [b'+' | b'-', ..] = self.peek() {
            legs.push(self.leg()?);
            while self.peek() == b";" {
                self.field();
                legs.push(self.leg()?);
            }
        }
        let ([kind, stop, manual, opening], shares) = self.flags_and_shares()?;
        Ok(Arrival {
            kind,
            stop,
            manual,
            opening,
            shares,
            settings: terms.settings.clone(),
            market: terms.market.clone(),
            ..Arrival::limit(&legs, price)
        })
    }

    /// Flags, and the shares with their count at any place among them, 0 without.
    fn flags_and_shares(&mut self) -> Result<([u64; 4], i64), String> {
        let (mut flags, mut shares) = ([0; 4], None);
        while !self.peek().is_empty() {
            if self.peek() == b"shares" && shares.is_none() {
                self.field();
                shares = Some(self.count("a share count")?);
            } else {
                self.flag(["market", "stop", "manual", "opening"], &mut flags)?;
            }
        }
        Ok((flags, shares.unwrap_or(0)))
    }

    /// The mark or none, and two orders.
    fn pair(&mut self, terms: &Terms) -> Result<Pair, String> {
        let is_marked = self.peek() == b"unpaired";
        if is_marked {
            self.field();
        }
        let [mut agency, contra] = self.parted()?;
        let agency = agency.order(terms)?;
        *self = contra;
        Ok(Pair::of(&agency, &self.order(terms)?, is_marked.into()))
    }

    /// What stands before the stroke, a field by itself, and what stands after it.
    fn parted(&self) -> Result<[Self; 2], String> {
        let mut rest = Rest(self.0);
        let mut strokes = Vec::new();
        while !rest.peek().is_empty() {
            let place = self.0.len() - rest.0.len();
            if rest.field() == b"/" {
                strokes.push(place);
            }
        }
        match strokes[..] {
            [place] => Ok([&self.0[..place], &self.0[place + 1..]].map(Rest)),
            _ => Err(format!("not one '/' but {}", strokes.len())),
        }
    }

    /// Flags, and a message: all after one blank, up to the blanks before the answer. A bar is the
    /// byte that ends a field.
    fn message(&mut self, terms: &Terms) -> Result<Message, String> {
        let mut flags = [0; 3];
        while let [b'a'..=b'z', ..] = Rest(self.0).peek() {
            self.flag(["stop", "manual", "opening"], &mut flags)?;
        }
        let text = self.0.strip_prefix(b" ").unwrap_or(self.0);
        let begins = |&at: &usize| {
            text[at..].starts_with(b"#") && (at == 0 || BLANKS.contains(&text[at - 1]))
        };
        let end = (0..text.len())
            .find(begins)
            .ok_or("the answer is missing")?;
        self.0 = &text[end..];
        let bytes = text[..end].trim_ascii_end().iter();
        let bytes = bytes.map(|&byte| if byte == b'|' { END } else { byte });
        let [stop, manual, opening] = flags;
        Ok(Message {
            bytes: bytes.collect(),
            stop,
            manual,
            opening,
            settings: terms.settings.clone(),
            market: terms.market.clone(),
        })
    }

    fn quote(&mut self, terms: &Terms) -> Result<Quote, String> {
        let symbol = self.series()?;
        let [bid, offer] = [self.take("a bid", mills)?, self.take("an offer", mills)?];
        let [resting] = self.flags(["resting"])?;
        Ok(Quote {
            resting,
            settings: terms.settings.clone(),
            market: terms.market.clone(),
            ..Quote::new(&symbol, bid, offer)
        })
    }

    /// Side, size and away price, what rests, a stroke, and a quote.
    fn crossing(&mut self, terms: &Terms) -> Result<Crossing, String> {
        let sell = self.take("a side", |word| place(&SIDES, word))?;
        let size = self.take("a size", whole)?;
        let away = self.take("an away price", mills)?;
        let offer_or_bid = |text: &str| {
            let (price, size) = text.split_once(':')?;
            Some((mills(price)?, whole(size)?))
        };
        let mut resting = Vec::new();
        while self.peek() != b"/" {
            resting.push(self.take("an offer or a bid", offer_or_bid)?);
        }
        self.field();
        let quote = self.quote(terms)?;
        Ok(Crossing {
            sell,
            away,
            ..Crossing::new(quote, size, &resting)
        })
    }

    /// A crossing quote, with an answer that has a fill for each in its list.
    fn crossing_case(
        &mut self,
        place: String,
        terms: &Terms,
    ) -> Result<Expected<Crossing>, String> {
        let case = self.crossing(terms)?;
        let answer = self.answer(|text| crossing_answer(text, case.prices.len()))?;
        Ok(Expected {
            place,
            case,
            answer,
        })
    }

    fn leg(&mut self) -> Result<RawLeg, String> {
        let count = self.count("a count")?;
        Ok((self.series()?, count))
    }

    /// A sign and digits.
    fn count(&mut self, what: &str) -> Result<i64, String> {
        let with_sign = |text: &&str| text.starts_with(['+', '-']);
        self.take(what, |text| signed(Some(text).filter(with_sign)?, whole))
    }

    /// A symbol as it is, or its parts in the fields of the layout, which may forbid them. Parts that
    /// no 21 bytes hold, a root of seven characters or a strike of 100000 dollars, become zeros: these
    /// are outside the layout too, so 4 or what is lower is given as for any bytes outside it.
    fn series(&mut self) -> Result<[u8; SYMBOL_LENGTH], String> {
        let begun = !self.peek().is_empty();
        if let Some((&symbol, rest)) = self.0.split_first_chunk().filter(|_| begun) {
            let breaks = |byte: &u8| ends_field(byte) || *byte == b'#';
            if !symbol[6..].iter().any(breaks) && rest.first().is_none_or(ends_field) {
                self.0 = rest;
                return Ok(symbol);
            }
        }
        let root = self.take("a root", |text| Some(text).filter(|text| text.len() <= 8))?;
        let expiry = self.take("an expiry", |text| whole(text).filter(|_| text.len() == 6))?;
        let option_type = self.take("a type", |text| text.parse::<char>().ok())?;
        let strike = self.take("a strike", mills)?;
        let symbol = format!("{root:<6}{expiry:06}{option_type}{strike:08}");
        Ok(symbol.as_bytes().try_into().unwrap_or_default())
    }
}

const BLANKS: &[u8] = b" \t";

fn ends_field(byte: &u8) -> bool {
    *byte == b';' || BLANKS.contains(byte)
}

fn length_while(bytes: &[u8], holds: impl Fn(&u8) -> bool) -> usize {
    bytes.iter().take_while(|byte| holds(byte)).count()
}

/// A size, after a sign or none.
fn signed(text: &str, size: fn(&str) -> Option<u64>) -> Option<i64> {
    let (sign, digits) = match text.strip_prefix('-') {
        Some(digits) => (-1, digits),
        None => (1, text.strip_prefix('+').unwrap_or(text)),
    };
    i64::try_from(sign * i128::from(size(digits)?)).ok()
}

/// The names of classes, of shapes and of sides, and whether an order passes, each at its number.
const CLASSES: [&str; 3] = ["undetermined", "debit", "credit"];
#[rustfmt::skip]
const SHAPES: [&str; 5] = ["other", "vertical", "true butterfly", "skewed butterfly", "box"];
const SIDES: [&str; 2] = ["buy", "sell"];
const PASSES: [&str; 2] = ["stopped", "passes"];

fn place(names: &[&str], name: &str) -> Option<u64> {
    let place = names.iter().position(|&known| known == name);
    place.map(|place| place as u64)
}

fn number_of(what: Of, text: &str) -> Option<u64> {
    whole(text).filter(|number| numbers::of(what).contains(number))
}

/// NUMBER of a refusal, otherwise NUMBER CLASS, SHAPE, PAIRINGS.
fn order_answer(what: Of, text: &str) -> Option<Answer> {
    let (number, words) = text.split_once(' ').unwrap_or((text, ""));
    let number = number_of(what, number)?;
    if kind(number) == Kind::Refused {
        return words.is_empty().then_some(Answer::refusal(number));
    }
    let (class, words) = words.split_once(", ")?;
    let (shape, pairings) = words.split_once(", ")?;
    Some(Answer {
        number,
        class: place(&CLASSES, class)?,
        shape: place(&SHAPES, shape)?,
        pairings: whole(pairings)?,
    })
}

/// NUMBER WORD of the agency order, a stroke, and the same of the contra order.
fn pair_answer(text: &str) -> Option<PairAnswer> {
    let side = |text: &str| {
        let (number, word) = text.split_once(' ')?;
        Some((number_of(Of::Order, number)?, place(&PASSES, word)?))
    };
    let (agency, contra) = text.split_once(" / ")?;
    let (agency_number, agency_passes) = side(agency)?;
    let (contra_number, contra_passes) = side(contra)?;
    Some(PairAnswer {
        agency_number,
        contra_number,
        agency_passes,
        contra_passes,
    })
}

/// NUMBER, or NUMBER cancel.
fn quote_answer(text: &str) -> Option<QuoteAnswer> {
    let (number, cancel) = match text.strip_suffix(" cancel") {
        Some(number) => (number, 1),
        None => (text, 0),
    };
    Some(QuoteAnswer {
        number: number_of(Of::Quote, number)?,
        cancel,
    })
}

/// 0 FILL .., SIZE executed, SIZE booked, SIZE cancelled; of any other number, 36 among them, as of
/// a quote.
fn crossing_answer(text: &str, fills: usize) -> Option<CrossingAnswer> {
    let parts: Vec<&str> = text.split(", ").collect();
    let [filled, executed, booked, cancelled] = parts[..] else {
        let answer = match number_of(Of::Crossing, text) {
            Some(number) => QuoteAnswer { number, cancel: 0 },
            None => quote_answer(text)?,
        };
        let nothing = CrossingAnswer::nothing(answer, fills);
        return Some(nothing).filter(|answer| answer.number != ACCEPTED);
    };
    let size = |text: &str, word| whole(text.strip_suffix(word)?);
    let numbers: Option<Vec<u64>> = filled.split(' ').map(whole).collect();
    let mut numbers = numbers?.into_iter();
    let answer = CrossingAnswer {
        number: numbers.next()?,
        cancel: 0,
        executed: size(executed, " executed")?,
        booked: size(booked, " booked")?,
        cancelled: size(cancelled, " cancelled")?,
        fills: numbers.collect(),
    };
    Some(answer).filter(|answer| answer.number == ACCEPTED && answer.fills.len() == fills)
}

#[cfg(test)]
mod tests {
    use super::*;

    fn read(text: &str) -> Result<Cases, String> {
        let mut cases = Cases::default();
        cases.add("file", text.as_bytes()).map(|()| cases)
    }

    const UNREADABLE: &str = "\
sell
reset nbo
set
set nbo
set nbo=-1
set NBO=1
set close=1
set nbo=1 nbb=1.0000
set nbo=18446744073709551616
order #= 3
order 1. #= 3
order .5 #= 3
order +-1 #= 3
order 9223372036854775.808 #= 3
order 1
order 1 # 3
order 1 #=
order 1 #= 2
order 1 #= 3 debit, other, 0
order 1 #= 0
order 1 #= 0 debit, other
order 1 #= 0 debit, butterfly, 1
order 1 buy #= 3
order 1 stop stop #= 3
order 1 shares #= 3
order 1 shares 100 #= 3
order 1 shares +-100 #= 3
order 1 shares +1.0 #= 3
order 1 shares + #= 3
order 1 shares +9223372036854775808 #= 3
order 1 shares -9223372036854775809 #= 3
order 1 shares stop +100 #= 3
order 1 shares ; #= 3
order 1 shares +0 shares +0 #= 3
order 1 shares +100 stop shares +100 #= 3
order 1 Shares +100 #= 3
order 1 stop +100 #= 3
order shares +100 1 #= 3
order 1 shares +100 +1 XYZ 270115 C 20 #= 3
order 1 shares +100 #= 33 debit, other, 0
order 1 1 XYZ 270115 C 20 #= 4
order 1 +1 XYZ 270115 C #= 4
order 1 +1 XYZ 270115 C -20 #= 4
order 1 +1 XYZ 270115 CP 20 #= 4
order 1 +1 XYZ 27115 C 20 #= 4
order 1 +1 ABCDEFGHI 270115 C 20 #= 4
order 1 +1 ; 270115 C 20 #= 4
order 1 +1 XYZ 270115 C 20; #= 4
order 1 +1 XYZ 270115 C 20 +1 XYZ 270115 C 21 #= 4
order 1 +1 XYZ   270115C000200000 #= 4
order 1 / #= 3
reset /
pair 1 / 1
pair 1 / 1 #= 3
pair 1 / 1 #= 3 stopped
pair 1 / 1 #= 3 stopped / 3
pair 1 / 1 #= 3 stopped / 3 stops
pair 1 / 1 #= 3 stopped, 3 stopped
pair 1 / 1 #= 3 stopped / 3 stopped / 3 stopped
pair 1 / 1 #= 11 stopped / 3 stopped
pair #= 3 stopped / 3 stopped
pair 1 #= 3 stopped / 3 stopped
pair 1 1 #= 3 stopped / 3 stopped
pair 1 / #= 3 stopped / 3 stopped
pair / 1 #= 3 stopped / 3 stopped
pair 1 / 1 / #= 3 stopped / 3 stopped
pair 1 / / 1 #= 3 stopped / 3 stopped
pair 1 / 1 / 1 #= 3 stopped / 3 stopped
pair 1/ 1 #= 3 stopped / 3 stopped
pair 1 /1 #= 3 stopped / 3 stopped
pair 1 // 1 #= 3 stopped / 3 stopped
pair 1 ; / 1 #= 3 stopped / 3 stopped
pair 1 /; 1 #= 3 stopped / 3 stopped
pair 1 # / 1 #= 3 stopped / 3 stopped
pair 1 unpaired / 1 #= 3 stopped / 3 stopped
pair 1 / unpaired 1 #= 3 stopped / 3 stopped
pair 1 / 1 unpaired #= 3 stopped / 3 stopped
pair unpaired unpaired 1 / 1 #= 3 stopped / 3 stopped
pair unpaired / 1 #= 3 stopped / 3 stopped
pair paired 1 / 1 #= 3 stopped / 3 stopped
pair 1 stop stop / 1 #= 3 stopped / 3 stopped
pair 1 shares / +100 1 #= 3 stopped / 3 stopped
pair 1 shares / 1 shares +100 #= 3 stopped / 3 stopped
pair shares +100 1 / 1 #= 3 stopped / 3 stopped
pair 1 +1 XYZ 270115 C / 1 #= 3 stopped / 3 stopped
pair 1 +1 / 270115 C 20 / 1 #= 4 stopped / 3 stopped
pair 1 +1 A / B 270115C00020000 / 1 #= 4 stopped / 3 stopped
pair 1 +1 XYZ 270115 C 20; / 1 #= 3 stopped / 3 stopped
quote XYZ 270115 C 20 1 2
quote XYZ 270115 C 20 1 #= 0
quote XYZ 270115 C 20 1 2 stop #= 0
quote XYZ 270115 C 20 1 2 shares +100 #= 0
quote XYZ 270115 C 20 1 2 #= 33
quote XYZ 270115 C 20 1 2 #= 3
quote XYZ 270115 C 20 1 2 #= 36
quote XYZ 270115 C 20 1 2 #= 20 cancelled
quote / XYZ 270115 C 20 1 2 #= 0
cross
cross buy 5 0 1:2 / XYZ 270115 C 20 1 2
cross buy 5 0 1:2 / XYZ 270115 C 20 1 2 # 36
cross buy 5 0 1:2 / XYZ 270115 C 20 1 2 #=
cross buy 5 0 1:2 / XYZ 270115 C 20 1 2 #= 0
cross buy 5 0 1:2 / XYZ 270115 C 20 1 2 #= 0 cancel
cross buy 5 0 1:2 / XYZ 270115 C 20 1 2 #= 0 2
cross buy 5 0 1:2 / XYZ 270115 C 20 1 2 #= 0 2, 2 executed
cross buy 5 0 1:2 / XYZ 270115 C 20 1 2 #= 0 2, 2 executed, 3 booked
cross buy 5 0 1:2 / XYZ 270115 C 20 1 2 #= 0 2, 3 booked, 2 executed, 0 cancelled
cross buy 5 0 1:2 / XYZ 270115 C 20 1 2 #= 0 2, 2, 3, 0
cross buy 5 0 1:2 / XYZ 270115 C 20 1 2 #= 0 2, 2 executed, 3 booked, 0 cancel
cross buy 5 0 1:2 / XYZ 270115 C 20 1 2 #= 0 2, 2 executed, 3 booked, 0 cancelled cancel
cross buy 5 0 1:2 / XYZ 270115 C 20 1 2 #= 0 2, 2 executed, 3 booked, 0 cancelled, 0
cross buy 5 0 1:2 / XYZ 270115 C 20 1 2 #= 0, 2 executed, 3 booked, 0 cancelled
cross buy 5 0 1:2 / XYZ 270115 C 20 1 2 #= 0 2 0, 2 executed, 3 booked, 0 cancelled
cross buy 5 0 1:2 / XYZ 270115 C 20 1 2 #= 0 +2, 2 executed, 3 booked, 0 cancelled
cross buy 5 0 1:2 / XYZ 270115 C 20 1 2 #= 2, 2 executed, 3 booked, 0 cancelled
cross buy 5 0 1:2 / XYZ 270115 C 20 1 2 #= 20 0, 0 executed, 0 booked, 0 cancelled
cross buy 5 0 1:2 / XYZ 270115 C 20 1 2 #= 36 cancel
cross buy 5 0 1:2 / XYZ 270115 C 20 1 2 #= 36 0
cross buy 5 0 1:2 / XYZ 270115 C 20 1 2 #= 20 cancelled
cross buy 5 0 1:2 / XYZ 270115 C 20 1 2 #= 22
cross buy 5 0 / XYZ 270115 C 20 1 2 #= 0 0 executed, 5 booked, 0 cancelled
cross buy 5 0 / XYZ 270115 C 20 1 2 #= 0 , 0 executed, 5 booked, 0 cancelled
cross bid 5 0 / XYZ 270115 C 20 1 2 #= 36
cross 5 0 / XYZ 270115 C 20 1 2 #= 36
cross buy / XYZ 270115 C 20 1 2 #= 36
cross buy +5 0 / XYZ 270115 C 20 1 2 #= 36
cross buy 5.0 0 / XYZ 270115 C 20 1 2 #= 36
cross buy 5 / XYZ 270115 C 20 1 2 #= 36
cross buy 5 -1 / XYZ 270115 C 20 1 2 #= 36
cross buy 5 1:2 / XYZ 270115 C 20 1 2 #= 36
cross buy 5 0 1 / XYZ 270115 C 20 1 2 #= 36
cross buy 5 0 1: / XYZ 270115 C 20 1 2 #= 36
cross buy 5 0 :2 / XYZ 270115 C 20 1 2 #= 36
cross buy 5 0 1:2:3 / XYZ 270115 C 20 1 2 #= 36
cross buy 5 0 1:2.0 / XYZ 270115 C 20 1 2 #= 36
cross buy 5 0 -1:2 / XYZ 270115 C 20 1 2 #= 36
cross buy 5 0 1:2; 2:2 / XYZ 270115 C 20 1 2 #= 36
cross buy 5 0 1:2 XYZ 270115 C 20 1 2 #= 36
cross buy 5 0 1:2 #= 36
cross buy 5 0 1:2 # / XYZ 270115 C 20 1 2 #= 36
cross buy 5 0 1:2/ XYZ 270115 C 20 1 2 #= 36
cross buy 5 0 1:2 / #= 36
cross buy 5 0 1:2 / / XYZ 270115 C 20 1 2 #= 36
cross buy 5 0 1:2 / XYZ 270115 C 20 1 #= 36
cross buy 5 0 1:2 / XYZ 270115 C 20 1 2 1:2 #= 36
cross buy 5 0 1:2 / XYZ 270115 C 20 1 2 resting resting #= 36
fix shares +100 | #= 30
fix | #= 33";

    #[test]
    fn what_cannot_be_read_is_an_error_with_its_place() {
        for line in UNREADABLE.lines() {
            let trouble = read(&format!("# first\n{line}")).err();
            let trouble = trouble.unwrap_or_else(|| panic!("read: {line}"));
            assert!(trouble.starts_with("file:2: "), "{trouble}");
        }
    }

    #[test]
    fn lines_are_read() {
        let cases = read(
            "set nbo=1.2 phase=2 # both\r\n\
            order -0.02 -1 a 270229 C 20;+2\tX Y#Z 270115C00020000 opening market #= 4\n\
            order 1 stop\tshares -9223372036854775808 manual #= 3\n\
            order 1 shares +100 #= 33\n\
            reset\n\
            quote ABCDEFG 270115 P 0.5 1 2.05 resting #= 20 cancel",
        );
        let Cases { orders, quotes, .. } = cases.unwrap_or_else(|trouble| panic!("{trouble}"));
        let [order, quote] = [&orders[0].place, &quotes[0].place];
        assert_eq!([order, quote], ["file:2", "file:6"]);
        let mut order = Arrival::limit(
            &[
                (*b"a     270229C00020000", -1),
                (*b"X Y#Z 270115C00020000", 2),
            ],
            -20,
        );
        (order.kind, order.opening) = (1, 1);
        (order.market[market::NBO], order.market[market::PHASE]) = (1_200, market::HALT);
        assert_eq!(orders[0].case, order);
        assert_eq!(orders[0].answer, Answer::refusal(4));
        let stock = [&orders[1].case, &orders[2].case].map(|order| {
            let flags = [order.kind, order.stop, order.manual, order.opening];
            (order.shares, flags, order.legs().len())
        });
        assert_eq!(stock, [(i64::MIN, [0, 1, 1, 0], 0), (100, [0; 4], 0)]);
        assert_eq!(orders[2].answer, Answer::refusal(33));
        let mut quote = Quote::new(&[0; 21], 1_000, 2_050);
        quote.resting = 1;
        assert_eq!(quotes[0].case, quote);
        assert_eq!((quotes[0].answer.number, quotes[0].answer.cancel), (20, 1));
    }

    #[test]
    fn pairs_are_read() {
        let cases = read(
            "set phase=2\n\
            pair 1 shares +7 / -0.5 stop #= 3 stopped / 8 stopped\n\
            pair unpaired 2 +1 A/B   270115C00020000 opening\t/ \
                -2 -1 // 270115 C 20; +1 A 270115 P 20 market shares -7 manual \
                #= 0 passes / 24 stopped",
        );
        let pairs = cases.unwrap_or_else(|trouble| panic!("{trouble}")).pairs;
        let order = |legs: &[RawLeg], price| {
            let mut order = Arrival::limit(legs, price);
            order.market[market::PHASE] = market::HALT;
            order
        };
        let [mut agency, mut contra] = [order(&[], 1_000), order(&[], -500)];
        (agency.shares, contra.stop) = (7, 1);
        assert_eq!(pairs[0].case, Pair::of(&agency, &contra, 0));
        let answer = |agency_number, contra_number, agency_passes| PairAnswer {
            agency_number,
            contra_number,
            agency_passes,
            contra_passes: 0,
        };
        assert_eq!(pairs[0].answer, answer(3, 8, 0));
        let strokes = (*b"//    270115C00020000", -1);
        agency = order(&[(*b"A/B   270115C00020000", 1)], 2_000);
        contra = order(&[strokes, (*b"A     270115P00020000", 1)], -2_000);
        (agency.opening, contra.kind, contra.manual) = (1, 1, 1);
        contra.shares = -7;
        assert_eq!(pairs[1].case, Pair::of(&agency, &contra, 1));
        assert_eq!(pairs[1].answer, answer(0, 24, 1));
        assert_eq!(
            (&pairs[0].place[..], &pairs[1].place[..]),
            ("file:2", "file:3")
        );
    }

    #[test]
    fn crossings_are_read() {
        let cases = read(
            "set nbo=1.2\n\
            cross buy 100 1.23 1.2:10\t1.24:20 / XYZ 270115 C 20 1.24 1.3 \
                #= 0 10 0, 10 executed, 0 booked, 90 cancelled\n\
            cross sell 7 0 / X /   270115C00020000 1 2 resting #= 4\n\
            cross sell 7 0 / XYZ 270115 C 20 1 2 #= 0, 0 executed, 7 booked, 0 cancelled\n\
            cross buy 7 0 1:0 / XYZ 270115 C 20 1 2 #= 36\n\
            cross buy 7 0 1:1 / XYZ 270115 C 20 1 2 resting #= 26 cancel",
        );
        let crossings = cases.unwrap_or_else(|trouble| panic!("{trouble}"));
        let crossings = crossings.crossings;
        let quote = |symbol, bid, offer, resting| {
            let mut quote = Quote::new(symbol, bid, offer);
            (quote.resting, quote.market[market::NBO]) = (resting, 1_200);
            quote
        };
        let call = b"XYZ   270115C00020000";
        let offers = [(1_200, 10), (1_240, 20)];
        let mut bid = Crossing::new(quote(call, 1_240, 1_300, 0), 100, &offers);
        bid.away = 1_230;
        let mut sale = Crossing::new(quote(b"X /   270115C00020000", 1_000, 2_000, 1), 7, &[]);
        sale.sell = 1;
        assert_eq!([&crossings[0].case, &crossings[1].case], [&bid, &sale]);
        let answer = CrossingAnswer {
            number: ACCEPTED,
            cancel: 0,
            executed: 10,
            booked: 0,
            cancelled: 90,
            fills: vec![10, 0],
        };
        assert_eq!(crossings[0].answer, answer);
        let of_quote =
            |number, cancel, fills| CrossingAnswer::nothing(QuoteAnswer { number, cancel }, fills);
        assert_eq!(crossings[1].answer, of_quote(4, 0, 0));
        let booked = CrossingAnswer {
            booked: 7,
            ..of_quote(ACCEPTED, 0, 0)
        };
        assert_eq!(crossings[2].answer, booked);
        assert_eq!(crossings[3].answer, of_quote(36, 0, 1));
        assert_eq!(crossings[4].answer, of_quote(26, 1, 1));
        assert_eq!(crossings[4].place, "file:6");
    }
}
