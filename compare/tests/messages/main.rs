//! Messages put to both implementations: tables of them on both sides of every limit, each with its
//! number; every byte of a few; made up at random; faults together; very large ones; and the orders
//! of `cases/*.desk` written as messages.

mod bytes;
mod faults;
mod large;
mod random;
mod table;

use compare::{
    cases,
    generate::messages::{body, with_body, writable},
    message::{Message, END},
    numbers::{self, Of},
    run::Run,
};

/// A bar becomes the byte that ends a field.
fn bytes(text: &str) -> Vec<u8> {
    let byte = |byte| if byte == b'|' { END } else { byte };
    text.bytes().map(byte).collect()
}

/// Puts a message to both, and holds the number.
fn hold(run: &mut Run, message: &Message, number: u64) {
    let answer = run.compare(message);
    assert_eq!(answer.number, number, "{}\n{message}", message.as_text());
}

/// The numbers that the order check can give for a message.
fn numbers_of_orders() -> Vec<u64> {
    let [of_order, of_message] = [Of::Order, Of::Message].map(numbers::of);
    let both = of_order
        .into_iter()
        .filter(|number| of_message.contains(number));
    both.collect()
}

/// Every order that can be written, those of the papers among them, in many ways.
#[test]
fn orders_of_cases() {
    let mut run = Run::new("cases as messages");
    for order in cases::all().orders {
        let (arrival, place) = (writable(&order.case), &order.place);
        if arrival != order.case {
            assert!(!place.starts_with("cases/papers.desk"), "{place}");
            continue;
        }
        for _ in 0..50 {
            let body = body(&mut run.random, &arrival);
            let answer = run.compare(&with_body(&arrival, &body));
            assert_eq!(answer, order.answer, "{place}");
        }
    }
    run.finish(&numbers_of_orders(), 50 * 600);
}
