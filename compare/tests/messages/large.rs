//! Very large messages.

use super::{bytes, hold};
use compare::{arrival::Answer, generate::messages::framed, message::Message, run::Run};

const MEGABYTE: usize = 1 << 20;

/// A megabyte of further fields, small ones or a single one, changes nothing.
#[test]
fn a_megabyte() {
    let mut run = Run::new("a megabyte");
    let mut hold = |message: Vec<u8>, number| hold(&mut run, &Message::new(message), number);
    let order = &bytes("40=2|44=1.5|555=1|600=XYZ   270319C00020000|623=1|624=1|")[..];
    for further in [
        bytes("58=|").repeat(MEGABYTE / 4),
        bytes("999999999=40=2|").repeat(MEGABYTE / 15),
        bytes(&format!("58={}|", "=".repeat(MEGABYTE))),
    ] {
        for body in [[order, &further].concat(), [&further, order].concat()] {
            let right = framed(&body);
            hold(right[1..].to_vec(), 30);
            hold(right, 0);
            hold(framed(&[&body[..], order].concat()), 31);
        }
        hold(framed(&further), 31);
        hold(further, 30);
    }
    run.finish(&[0, 30, 31], 3 * 8);
}

/// Around the most, and some that would be few if cut short.
const NUMBERS_OF_LEGS: [usize; 15] = [
    0, 1, 2, 15, 16, 17, 18, 255, 256, 257, 272, 1_000, 65_536, 65_537, 65_552,
];

/// With as many groups as the leg number says, one fewer, one more, and the last not of its form.
#[test]
fn numbers_of_legs() {
    let mut run = Run::new("numbers of legs");
    for legs in NUMBERS_OF_LEGS {
        let message = with_legs(legs, legs, "1");
        match legs {
            1..=16 => hold(&mut run, &message, 0),
            0..=1_000 => hold(&mut run, &message, 3),
            // The second implementation would look at every two legs.
            _ => {
                run.expect(&message, Answer::refusal(3), "the rule");
            }
        }
        hold(&mut run, &with_legs(legs + 1, legs, "1"), 31);
        if legs > 0 {
            hold(&mut run, &with_legs(legs - 1, legs, "1"), 31);
            hold(&mut run, &with_legs(legs, legs, ""), 32);
        }
    }
    run.finish(&[0, 3, 31, 32], 58);
}

/// Calls bought at rising strikes, the last with some ratio, and a leg number.
fn with_legs(said: usize, legs: usize, last: &str) -> Message {
    let group = |place: usize| {
        let ratio = if place == legs { last } else { "1" };
        format!("600=XYZ   270319C{place:08}|623={ratio}|624=1|")
    };
    let groups: String = (1..=legs).map(group).collect();
    let body = format!("44=1|40=2|555={said}|{groups}");
    Message::new(framed(&bytes(&body)))
}
