//! Messages made up at random.

use super::numbers_of_orders;
use compare::{
    generate::{
        messages::{body, change_value, is_of_group, message, order, with_body, Field},
        shuffle,
    },
    numbers::{self, Of},
    random::Random,
    run::Run,
    unit,
};

const COMPARISONS: u64 = 1_000_000;
const LEAST_OF_EACH: u64 = 1_000;
const ORDERS: u64 = 100_000;

#[test]
fn both_give_the_same_answers() {
    let mut run = Run::new("messages");
    while run.comparisons < COMPARISONS {
        let message = message(&mut run.random);
        run.compare(&message);
    }
    run.report();
    run.require(&numbers::of(Of::Message), LEAST_OF_EACH);
}

/// However an order is written, the message gets the order's answer.
#[test]
fn orders_as_messages() {
    let mut run = Run::new("orders as messages");
    for _ in 0..ORDERS {
        let arrival = order(&mut run.random);
        let answer = unit::check_order(&arrival);
        let body = body(&mut run.random, &arrival);
        run.expect(&with_body(&arrival, &body), answer, "the order check");
    }
    run.report();
    run.require(&numbers_of_orders(), LEAST_OF_EACH / 10);
}

/// In another sequence of its groups a message gets the same answer, also where a value is not of
/// its form.
#[test]
fn groups_in_another_sequence() {
    let mut run = Run::new("sequence of groups");
    let mut rearranged = 0;
    for _ in 0..ORDERS {
        let arrival = order(&mut run.random);
        let mut body = body(&mut run.random, &arrival);
        let place = run.random.index(body.len());
        if body[place].0 != "555" && run.random.index(4) == 0 {
            change_value(&mut run.random, &mut body[place]);
        }
        let other = with_groups_shuffled(&mut run.random, &body);
        rearranged += u64::from(other != body);
        let [message, other] = [body, other].map(|body| with_body(&arrival, &body));
        let (answer, other_answer) = (run.compare(&message), run.compare(&other));
        assert_eq!(answer, other_answer, "{message}\nrearranged\n{other}");
    }
    run.report();
    println!("sequence of groups: {rearranged} in another");
    assert!(rearranged >= ORDERS / 2);
}

fn with_groups_shuffled(random: &mut Random, body: &[Field]) -> Vec<Field> {
    let start = body.iter().position(is_of_group);
    let end = body.iter().rposition(is_of_group);
    let (Some(start), Some(end)) = (start, end) else {
        return body.to_vec();
    };
    let (before, after) = (&body[..start], &body[end + 1..]);
    let mut groups: Vec<&[Field]> = body[start..=end].chunks(3).collect();
    shuffle(random, &mut groups);
    [before, &groups.concat(), after].concat()
}
