//! Faults together: which number comes first.

use super::hold;
use compare::{
    arrival::{Arrival, RawLeg},
    generate::messages::{body, field, with_body},
    limits::{every_length, faults_together, Fault},
    message::Message,
    random::Random,
    run::Run,
    series::{call, put},
    slices::{market::*, setting::*},
};

const MARCH: u64 = 160_318;

/// What a message is made of, and what is done to it at the end.
#[derive(Clone)]
struct Draft {
    arrival: Arrival,
    kind: &'static str,
    stray_ratio: bool,
    cut: bool,
}

impl Draft {
    fn message(&self, random: &mut Random) -> Message {
        let mut fields = body(random, &self.arrival);
        for (tag, value) in &mut fields {
            if tag == "40" {
                *value = self.kind.into();
            }
        }
        if self.stray_ratio {
            fields.push(field("623", "1"));
        }
        let mut message = with_body(&self.arrival, &fields);
        if self.cut {
            message.bytes.pop();
        }
        message
    }

    fn append(&mut self, legs: &[RawLeg]) {
        let all = [&self.arrival.legs(), legs].concat();
        self.arrival = self.arrival.with_legs(&all);
    }
}

/// Faults that can be made one on top of the other, the first first.
const FAULTS: [Fault<Draft>; 11] = [
    (30, |draft| draft.cut = true),
    (31, |draft| draft.stray_ratio = true),
    (32, |draft| draft.kind = "3"),
    (3, |draft| {
        let legs = (0..16).map(|place| call(MARCH, 50_000 + place).leg(1));
        draft.append(&legs.collect::<Vec<_>>());
    }),
    (4, |draft| draft.append(&[call(0, 30_000).leg(1)])),
    (5, |draft| draft.append(&[call(MARCH, 31_000).leg(10_001)])),
    (6, |draft| {
        draft.append(&[1, -1].map(|count| put(MARCH, 32_000).leg(count)))
    }),
    (7, |draft| {
        let mut series = put(MARCH, 33_000);
        series.root = "XYZ7";
        draft.append(&[series.leg(1)]);
    }),
    (8, |draft| draft.arrival.price = -1_000_000_000_001),
    (9, |draft| draft.arrival.settings[PERCENTAGE] = 10_001),
    (10, |draft| draft.arrival.market[PHASE] = 3),
];

/// Any faults together, and settings and market of any length: those of a message come first, then
/// the first number of the order check.
#[test]
fn first_number_first() {
    let mut run = Run::new("faults of messages");
    let legs = [call(MARCH, 10_000).leg(1), call(MARCH, 20_000).leg(-1)];
    let draft = Draft {
        arrival: Arrival::limit(&legs, 1_000),
        kind: "2",
        stray_ratio: false,
        cut: false,
    };
    for (draft, number) in faults_together(&draft, &FAULTS) {
        let message = draft.message(&mut run.random);
        for (settings, market, number) in every_length(number) {
            let mut message = message.clone();
            message.settings.resize(settings, 1);
            message.market.resize(market, 1);
            hold(&mut run, &message, number);
        }
    }
    run.finish(&[0, 3, 4, 5, 6, 7, 8, 9, 10, 30, 31, 32], 80 * 2_048);
}
