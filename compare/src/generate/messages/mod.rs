//! Messages: orders of every sort, written in any way that the form leaves open, and then perhaps
//! one thing damaged.

mod damage;
mod fields;

pub use damage::change_value;
pub use fields::{field, framed, is_of_group, mended, with_sum, Field};

use super::{legs_of, list_of, shuffle};
use crate::{
    arrival::{Arrival, RawLeg},
    message::{Message, END},
    random::Random,
};
use damage::{damage_body, damage_byte, damage_frame};
use fields::written;

/// The largest numbers that 15 digits write; a price has three more.
const LARGEST_RATIO: i64 = 999_999_999_999_999;
const LARGEST_PRICE: i64 = 999_999_999_999_999_999;

const MANY_LEGS: usize = 1_000;

/// A whole message, half of them without damage.
pub fn message(random: &mut Random) -> Message {
    let arrival = order(random);
    let mut body = body(random, &arrival);
    let damaged = random.index(8);
    if damaged <= 1 {
        damage_body(random, &mut body);
    }
    let mut message = with_body(&arrival, &body);
    match damaged {
        2 => message.bytes = damage_frame(random, &message.bytes),
        3 => message.bytes = damage_byte(random, &message.bytes),
        _ => (),
    }
    message
}

/// The fields in a right frame, beside the flags, settings and market of an order.
pub fn with_body(arrival: &Arrival, body: &[Field]) -> Message {
    Message::beside(arrival, framed(&written(body)))
}

/// An order that a message can carry, now and then with a great many legs.
pub fn order(random: &mut Random) -> Arrival {
    let arrival = super::arrival(random);
    writable(&match random.index(8_192) {
        0 => arrival.with_legs(&legs_of(&list_of(random, MANY_LEGS))),
        _ => arrival,
    })
}

/// The order with its whole legs alone, no shares, and sizes that a message's digits can write.
pub fn writable(arrival: &Arrival) -> Arrival {
    let mut legs = arrival.legs();
    legs.retain(|(symbol, _)| !symbol.contains(&END));
    for (_, count) in &mut legs {
        *count = (*count).clamp(-LARGEST_RATIO, LARGEST_RATIO);
    }
    Arrival {
        price: arrival.price.clamp(-LARGEST_PRICE, LARGEST_PRICE),
        shares: 0,
        ..arrival.with_legs(&legs)
    }
}

/// The fields of a right body, in any sequence, with further ones wherever they may stand.
pub fn body(random: &mut Random, arrival: &Arrival) -> Vec<Field> {
    let legs = arrival.legs();
    let kind = if arrival.kind == 0 { "2" } else { "1" };
    let mut needed = [
        field("40", kind),
        field("44", price(random, arrival.price)),
        field("555", number(random, legs.len() as u64)),
    ];
    shuffle(random, &mut needed);
    let mut fields = Vec::new();
    for needed in needed {
        add_further(random, &mut fields);
        let is_leg_number = needed.0 == "555";
        fields.push(needed);
        if is_leg_number {
            fields.extend(legs.iter().flat_map(|leg| group(random, leg)));
        }
    }
    add_further(random, &mut fields);
    fields
}

fn group(random: &mut Random, &(symbol, count): &RawLeg) -> [Field; 3] {
    let side = match count.signum() {
        1 => "1",
        -1 => "2",
        _ => *random.pick(&["1", "2"]),
    };
    let ratio = number(random, count.unsigned_abs());
    [
        field("600", symbol),
        field("623", ratio),
        field("624", side),
    ]
}

/// At times with zeros in front, up to 15 digits in all.
fn number(random: &mut Random, number: u64) -> String {
    let digits = match random.index(8) {
        0 => random.index(16),
        _ => 0,
    };
    format!("{number:0digits$}")
}

/// Dollars with as few decimals as will do, or more, up to three.
fn price(random: &mut Random, mills: i64) -> String {
    let sign = match mills.signum() {
        1 => "",
        -1 => "-",
        _ => *random.pick(&["", "-"]),
    };
    let size = mills.unsigned_abs();
    let dollars = number(random, size / 1_000);
    let decimals = format!("{:03}", size % 1_000);
    let least = decimals.trim_end_matches('0').len();
    match random.between(least as u64, 3) as usize {
        0 => format!("{sign}{dollars}"),
        some => format!("{sign}{dollars}.{}", &decimals[..some]),
    }
}

fn add_further(random: &mut Random, fields: &mut Vec<Field>) {
    while random.index(3) == 0 {
        fields.push(further(random));
    }
}

/// The tags that have a meaning, and tags that could be taken for one of them: by some of their
/// digits, by their low bits, or next to it.
const KNOWN: [u64; 10] = [8, 9, 10, 35, 40, 44, 555, 600, 623, 624];
#[rustfmt::skip]
const ALIKE: [u64; 32] = [
    1, 3, 4, 5, 6, 80, 99, 100, 350, 400, 440, 5_555, 6_000, 6_230, 6_240, 62, 60,
    264, 265, 266, 291, 296, 300, 811, 856, 879, 880, 65_576, 66_091, 66_136, 66_159, 66_160,
];

/// A field that is stepped over: any tag of one to nine digits without a meaning, any value.
fn further(random: &mut Random) -> Field {
    let most = 10_u64.pow(random.between(1, 9) as u32) - 1;
    let tag = match random.index(4) {
        0 => *random.pick(&ALIKE),
        1 => random.pick(&KNOWN) + random.between(0, 2) - 1,
        2 => most,
        _ => random.between(1, most),
    };
    let tag = if KNOWN.contains(&tag) { 58 } else { tag };
    const VALUES: [&str; 7] = ["", "=", "Y", "40=2", "10=000", "20270104-14:30:00", "a=b="];
    let mut value = random.pick(&VALUES).as_bytes().to_vec();
    if random.index(2) == 0 {
        let length = random.index(13);
        value = random.bytes(length);
        value.retain(|&byte| byte != END);
    }
    field(&tag.to_string(), value)
}
