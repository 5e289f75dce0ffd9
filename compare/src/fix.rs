//! The check of messages (document 02, S-1), by another method than the proved one: the message is
//! split at every byte 1, and the list of its fields is asked whether the frame is right, then
//! whether every needed tag is where it may be, then whether every value has its form.

use crate::{
    arrival::{Answer, Arrival, RawLeg},
    message::{Message, END},
    numbers::{BAD_FRAME, BAD_TAGS, BAD_VALUE},
    order,
    text::{mills, whole},
};
use std::str;

const FRAME: [u64; 4] = [8, 9, 35, 10];
const NEEDED: [u64; 3] = [40, 44, 555];
const GROUP: [u64; 3] = [600, 623, 624];

const MOST_TAG_DIGITS: usize = 9;
const MOST_DIGITS: usize = 15;

/// What the order check says of the order in the message, unless that cannot be read.
pub fn check(message: &Message) -> Answer {
    match order_in(message) {
        Ok(arrival) => order::check(&arrival),
        Err(number) => Answer::refusal(number),
    }
}

fn order_in(message: &Message) -> Result<Arrival, u64> {
    let body = body(&message.bytes).ok_or(BAD_FRAME)?;
    let values = Values::in_body(&body).ok_or(BAD_TAGS)?;
    let order = values.order().ok_or(BAD_VALUE)?;
    Ok(Arrival {
        stop: message.stop,
        manual: message.manual,
        opening: message.opening,
        settings: message.settings.clone(),
        market: message.market.clone(),
        ..order
    })
}

struct Field<'a> {
    tag: u64,
    value: &'a [u8],
    /// Of the whole field, with the byte that ends it.
    length: usize,
}

impl<'a> Field<'a> {
    /// From what stands before the byte that ends it.
    fn of(bytes: &'a [u8]) -> Option<Self> {
        let tag_length = bytes.iter().position(|&byte| byte == b'=')?;
        let tag = digits(&bytes[..tag_length], MOST_TAG_DIGITS);
        Some(Field {
            tag: tag.filter(|_| bytes[0] != b'0')?,
            value: &bytes[tag_length + 1..],
            length: bytes.len() + 1,
        })
    }
}

/// The fields of the body, where the frame around it is right.
fn body(message: &[u8]) -> Option<Vec<Field<'_>>> {
    let fields = message.strip_suffix(&[END])?.split(|&byte| byte == END);
    let mut fields = fields.map(Field::of).collect::<Option<Vec<Field>>>()?;
    let [begin, length, kind, body @ .., sum] = &fields[..] else {
        return None;
    };
    let earlier = &message[..message.len() - sum.length];
    let counted = earlier.len() - begin.length - length.length;
    let total: u64 = earlier.iter().map(|&byte| u64::from(byte)).sum();
    let right = [begin, length, kind, sum].map(|field| field.tag) == FRAME
        && begin.value == b"FIX.4.4"
        && number(length.value) == Some(counted as u64)
        && kind.value == b"AB"
        && sum.value == format!("{:03}", total % 256).as_bytes()
        && !body.iter().any(|field| FRAME.contains(&field.tag));
    fields.pop();
    right.then(|| fields.split_off(3))
}

/// The values of the needed tags, whatever they hold.
struct Values<'a> {
    kind: &'a [u8],
    price: &'a [u8],
    legs: &'a [u8],
    groups: Vec<[&'a [u8]; 3]>,
}

impl<'a> Values<'a> {
    /// None if a needed tag is missing, repeated or out of sequence. The groups are a window of the
    /// body, just after the leg number: outside of it there may be no tag of a group.
    fn in_body(body: &[Field<'a>]) -> Option<Self> {
        let [kind, price, legs] = NEEDED.map(|tag| only_place(body, tag));
        let (kind, price, legs) = (kind?, price?, legs?);
        let number = number(body[legs].value).unwrap_or(0) as usize;
        let window = body.get(legs + 1..)?.get(..3 * number)?;
        let in_sequence = |group: &[Field]| group.iter().map(|field| field.tag).eq(GROUP);
        let of_groups = body.iter().filter(|field| GROUP.contains(&field.tag));
        let right = window.chunks(3).all(in_sequence) && of_groups.count() == window.len();
        let values = |group: &[Field<'a>]| [0, 1, 2].map(|place| group[place].value);
        right.then(|| Values {
            kind: body[kind].value,
            price: body[price].value,
            legs: body[legs].value,
            groups: window.chunks(3).map(values).collect(),
        })
    }

    /// None if a value is not of its form.
    fn order(&self) -> Option<Arrival> {
        number(self.legs)?;
        let legs: Option<Vec<RawLeg>> = self.groups.iter().map(leg).collect();
        Some(Arrival {
            kind: one_or_two(self.kind, [1, 0])?,
            ..Arrival::limit(&legs?, price(self.price)?)
        })
    }
}

/// The place of a tag that is there once.
fn only_place(body: &[Field], tag: u64) -> Option<usize> {
    let mut places = (0..body.len()).filter(|&place| body[place].tag == tag);
    let first = places.next();
    first.filter(|_| places.next().is_none())
}

fn leg(&[symbol, ratio, side]: &[&[u8]; 3]) -> Option<RawLeg> {
    let count = number(ratio)? as i64 * one_or_two(side, [1, -1])?;
    Some((symbol.try_into().ok()?, count))
}

/// What the digit 1 or the digit 2 stands for.
fn one_or_two<T>(value: &[u8], [one, two]: [T; 2]) -> Option<T> {
    match value {
        b"1" => Some(one),
        b"2" => Some(two),
        _ => None,
    }
}

fn number(value: &[u8]) -> Option<u64> {
    digits(value, MOST_DIGITS)
}

/// One digit or more, up to so many.
fn digits(text: &[u8], most: usize) -> Option<u64> {
    let text = str::from_utf8(text).ok()?;
    whole(text).filter(|_| text.len() <= most)
}

/// Dollars as mills: a minus or none, then the size.
fn price(value: &[u8]) -> Option<i64> {
    let text = str::from_utf8(value).ok()?;
    let (sign, size) = match text.strip_prefix('-') {
        Some(size) => (-1, size),
        None => (1, text),
    };
    let dollars = size.find('.').unwrap_or(size.len());
    let size = mills(size).filter(|_| dollars <= MOST_DIGITS)?;
    Some(sign * size as i64)
}
