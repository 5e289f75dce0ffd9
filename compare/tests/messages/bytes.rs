//! Every byte of a few right messages: changed to every other value, dropped, and every value put
//! in before it, its own among them.

use super::{bytes, hold};
use compare::{
    generate::messages::{framed, mended, with_sum},
    message::Message,
    run::Run,
};

const BODIES: [&str; 3] = [
    "40=2|44=1.5|555=1|600=XYZ   270319C00020000|623=1|624=1|",
    "555=1|600=A     271231P99999999|623=07|624=2|58=|44=-0.05|40=1|",
    "44=1|555=2|600=ABCDEF280229C00000001|623=2|624=1|600=ABCDEF280229C00000003|623=1|624=2|40=2|",
];

#[test]
fn every_byte() {
    let mut run = Run::new("every byte");
    for body in BODIES {
        let right = framed(&bytes(body));
        hold(&mut run, &Message::new(right.clone()), 0);
        for place in 0..right.len() {
            for other in others(&right, place) {
                compare(&mut run, other);
            }
        }
    }
    run.finish(&[0, 4, 5, 6, 7, 8, 23, 24, 30, 31, 32], 3 * 3 * 80 * 512);
}

/// The message with another byte at a place, without the byte there, and with a byte more.
fn others(right: &[u8], place: usize) -> Vec<Vec<u8>> {
    let (before, after) = (&right[..place], &right[place + 1..]);
    let with = |byte: u8| [before, &[byte], after].concat();
    let changed = (0..=u8::MAX).filter(|&byte| byte != right[place]).map(with);
    let and_more = |byte: u8| [before, &[byte], &right[place..]].concat();
    let longer = (0..=u8::MAX).map(and_more);
    changed
        .chain([[before, after].concat()])
        .chain(longer)
        .collect()
}

/// As it is, the frame is wrong: the sum is another, or where a byte 0 was put in, the length or
/// the form of a field of the frame. With the sum, or length and sum, right again the byte counts.
fn compare(run: &mut Run, message: Vec<u8>) {
    run.compare(&Message::new(with_sum(&message)));
    run.compare(&Message::new(mended(&message)));
    hold(run, &Message::new(message), 30);
}
