//! Damage of one thing: of a field of the body, of the frame, or of a byte.

use super::{
    fields::{field, field_bytes, is_of_group, mended, split, with_sum, Field},
    further, KNOWN,
};
use crate::random::Random;

/// Of the field that holds the sum.
const SUM_LENGTH: usize = 7;

#[rustfmt::skip]
const TAGS: [&str; 20] = [
    "", "0", "00", "040", "0600", "000000555", "+40", "-40", " 40", "40 ", "4 0", "a", "40a",
    "0x28", "1000000000", "1000000040", "4294967336", "4294967851", "999999999", "1",
];

#[rustfmt::skip]
const PRICES: [&str; 48] = [
    "", "-", ".", "-.", "1.", "-1.", ".5", "-.5", "+1", "-+1", "--1", "1-", "1.-5", "1.5.", "1..5",
    "1,5", "1e3", " 1", "1 ", "1. 5", "0x1", "1.5a", "1:", "1/", "-0", "0", "0.0", "-0.000", "1",
    "1.5", "1.50", "1.500", "1.5000", "0.0000", "-1.0001", "000000000000001.5",
    "0000000000000001.5", "-000000000000001", "-0000000000000001", "999999999999999.999",
    "-999999999999999.999", "1000000000000000", "9223372036854775.808", "18446744073709551.616",
    "1000000000", "-1000000000.000", "1000000000.001", "-1000000000.001",
];

#[rustfmt::skip]
const NUMBERS: [&str; 32] = [
    "", "0", "00", "000000000000000", "0000000000000000", "1", "01", "2", "3", "16", "17", "1000",
    "10000", "10001", "000000000000001", "0000000000000001", "999999999999999", "1000000000000000",
    "9999999999999999", "256", "257", "65537", "4294967296", "4294967297", "18446744073709551617",
    "-1", "+1", "1.0", " 1", "1 ", "1a", ":",
];

const ONE_OR_TWO: [&str; 14] = [
    "", "0", "1", "2", "3", "01", "02", "11", "12", "1 ", " 2", "-1", "A", "=",
];

/// Makes one thing wrong in the fields of a right body, or perhaps just unusual.
pub fn damage_body(random: &mut Random, body: &mut Vec<Field>) {
    let length = body.len();
    let [place, other] = [0; 2].map(|_| random.index(length));
    match random.index(12) {
        0 => drop(body.remove(place)),
        1 => body.insert(other, body[place].clone()),
        2 => {
            let moved = body.remove(place);
            body.insert(other, moved);
        }
        3 => body.swap(place, (place + 1) % length),
        4 => body[place].0 = random.pick(&TAGS).to_string(),
        5 => body[place].0 = random.pick(&KNOWN).to_string(),
        6 => body.insert(place, strange(random)),
        7 => body.insert(place, further(random)),
        8 => change_leg_number(random, body),
        9 => drop(body.drain(place..length.min(place + 3))), // perhaps a whole group
        _ => change_value(random, &mut body[place]),
    }
}

/// A field that has a meaning elsewhere, with a value that may be right there.
fn strange(random: &mut Random) -> Field {
    const FIELDS: [(&str, &str); 12] = [
        ("8", "FIX.4.4"),
        ("9", "5"),
        ("35", "AB"),
        ("10", "000"),
        ("40", "2"),
        ("44", "1"),
        ("555", "0"),
        ("555", "1"),
        ("600", "XYZ   270115C00020000"),
        ("623", "1"),
        ("624", "1"),
        ("58", ""),
    ];
    let (tag, value) = *random.pick(&FIELDS);
    field(tag, value)
}

/// Makes the leg number one more or less, or any other value; the groups stay or go.
fn change_leg_number(random: &mut Random, body: &mut Vec<Field>) {
    let groups = body.iter().filter(|field| is_of_group(field)).count() / 3;
    let number = body.iter_mut().find(|field| field.0 == "555");
    let number = number.expect("the body is right");
    match random.index(4) {
        0 => number.1 = (groups + 1).to_string().into_bytes(),
        1 => number.1 = groups.saturating_sub(1).to_string().into_bytes(),
        _ => change_value(random, number),
    }
    if random.index(3) == 0 {
        body.retain(|field| !is_of_group(field));
    }
}

/// Gives a value at the limits of its form, or beyond.
pub fn change_value(random: &mut Random, (tag, value): &mut Field) {
    let values: &[&str] = match tag.as_str() {
        "40" | "624" => &ONE_OR_TWO,
        "44" => &PRICES,
        "555" | "623" => &NUMBERS,
        _ => return change_bytes(random, value),
    };
    *value = random.pick(values).as_bytes().to_vec();
}

/// A byte more or less, another byte, or none at all.
fn change_bytes(random: &mut Random, value: &mut Vec<u8>) {
    let byte = *random.pick(b" =.-+09AZaz\x00\x02\x7f\x80\xff");
    match (random.index(4), value.first_mut()) {
        (0, _) => value.push(byte),
        (1, _) => drop(value.pop()),
        (2, Some(first)) => *first = byte,
        _ => value.clear(),
    }
}

/// Makes one thing wrong with a frame, or perhaps just unusual. The sum is right again unless it is
/// the thing, so that it does not hide what was done.
pub fn damage_frame(random: &mut Random, message: &[u8]) -> Vec<u8> {
    const BEGINS: [&str; 6] = ["", "FIX.4.2", "FIX.4.40", "FIX.4", "fix.4.4", "FIX.4.4="];
    const KINDS: [&str; 6] = ["", "A", "AC", "ABB", "ab", "D"];
    let mut fields: Vec<Vec<u8>> = split(message).into_iter().map(<[u8]>::to_vec).collect();
    let last = fields.len() - 1;
    let [place, other] = [0; 2].map(|_| *random.pick(&[0, 1, 2, last]));
    match random.index(8) {
        0 => fields[0] = field_bytes("8", random.pick(&BEGINS)),
        1 => fields[2] = field_bytes("35", random.pick(&KINDS)),
        2 => return with_other_length(random, message),
        3 => return with_other_sum(random, message),
        4 => fields.swap(place, other),
        5 => drop(fields.remove(place)),
        6 => fields.insert(other, fields[place].clone()),
        _ => return with_other_end(random, message),
    }
    match random.index(4) {
        0 => with_sum(&fields.concat()),
        _ => mended(&fields.concat()),
    }
}

/// The length in another form, at times one that is right, or another length.
fn with_other_length(random: &mut Random, message: &[u8]) -> Vec<u8> {
    let mut fields = split(message);
    let last = fields.len() - 1;
    let right = fields[2..last].concat().len();
    let other = match random.index(14) {
        0 => String::new(),
        1 => format!("{right:015}"),
        2 => format!("{right:016}"),
        3 => format!("0{right}"),
        4 => format!("+{right}"),
        5 => format!("{right} "),
        6 => format!("{right}.0"),
        7 => (right + 1).to_string(),
        8 => (right - 1).to_string(),
        9 => (right + 256).to_string(),
        10 => (right + (1 << 16)).to_string(),
        11 => (right + (1 << 32)).to_string(),
        12 => (right + fields[1].len()).to_string(),
        _ => (right + fields[last].len()).to_string(),
    };
    let length = field_bytes("9", other);
    fields[1] = &length;
    with_sum(&fields.concat())
}

/// The sum in another form, or another sum.
fn with_other_sum(random: &mut Random, message: &[u8]) -> Vec<u8> {
    let earlier = &message[..message.len() - SUM_LENGTH];
    let right = earlier.iter().map(|&byte| u32::from(byte)).sum::<u32>() % 256;
    let other = match random.index(8) {
        0 => String::new(),
        1 => right.to_string(),
        2 => format!("{right:02}"),
        3 => format!("{right:04}"),
        4 => format!("{right:>3}"),
        5 => format!("{:03}", right + 256),
        6 => format!("{:03}", (right + 255) % 256),
        _ => format!("{:03}", (right + 1) % 256),
    };
    [earlier, &field_bytes("10", other)].concat()
}

/// Cut off somewhere, or with something after the last field.
fn with_other_end(random: &mut Random, message: &[u8]) -> Vec<u8> {
    const MORE: [&str; 7] = ["\x01", "0", "=", "58=\x01", "10=000\x01", "10=", "\0"];
    match random.index(4) {
        0 => message[..random.index(message.len())].to_vec(),
        1 => message[..message.len() - 1].to_vec(),
        2 => [message, message].concat(),
        _ => [message, random.pick(&MORE).as_bytes()].concat(),
    }
}

/// Changes a byte, drops it or has it twice. Mostly length and sum are right again.
pub fn damage_byte(random: &mut Random, message: &[u8]) -> Vec<u8> {
    let mut bytes = message.to_vec();
    let place = random.index(bytes.len());
    match random.index(4) {
        0 => bytes[place] = random.number() as u8,
        1 => bytes[place] = *random.pick(b"\x01=.-+0123456789 A"),
        2 => drop(bytes.remove(place)),
        _ => bytes.insert(place, bytes[place]),
    }
    match random.index(4) {
        0 => bytes,
        1 => with_sum(&bytes),
        _ => mended(&bytes),
    }
}
