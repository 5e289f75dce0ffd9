//! One case again, from the line that a difference prints:
//! `COMPARE_CASE='...' cargo test --release --test replay -- --nocapture`.
//! Without that variable: the lines of many cases read back as the same cases.

use compare::{
    arrival::Arrival,
    case::Case,
    cases,
    crossing::{Crossing, CROSSING},
    generate::{self, sessions},
    message::{Message, MESSAGE},
    order,
    pair::{Pair, PAIR},
    quote::{Quote, QUOTE},
    random::Random,
    run::{Run, CASE_VARIABLE},
    session::{Release, Sent, Start, RELEASE, SENT, START},
    tally::{Tallied, Tally, TALLIED},
};
use std::{env, fmt::Debug, str::FromStr};

#[test]
fn replay() {
    let Ok(line) = env::var(CASE_VARIABLE) else {
        return lines_read_back();
    };
    let mut words = line.split_whitespace();
    match (words.next(), words.next()) {
        (Some(QUOTE), _) => again::<Quote>(&line),
        (Some(CROSSING), _) => again::<Crossing>(&line),
        (Some(PAIR), _) => again::<Pair>(&line),
        (Some(MESSAGE), _) => again::<Message>(&line),
        (Some(TALLIED), Some(MESSAGE)) => again::<Tallied<Message>>(&line),
        (Some(TALLIED), _) => again::<Tallied>(&line),
        (Some(SENT), Some(MESSAGE)) => again::<Sent<Message>>(&line),
        (Some(SENT), _) => again::<Sent>(&line),
        (Some(RELEASE), _) => again::<Release>(&line),
        (Some(START), _) => again::<Start>(&line),
        _ => {
            let arrival = read(&line);
            println!("by contracts: {:?}", order::check_by_contracts(&arrival));
            again::<Arrival>(&line);
        }
    }
}

fn read<C: FromStr<Err = String>>(line: &str) -> C {
    line.parse().expect("a line that a difference printed")
}

fn again<C: Case + FromStr<Err = String>>(line: &str) {
    let case: C = read(line);
    println!("{}", case.described());
    println!("the library: {:?}", case.library());
    println!("the second implementation: {:?}", case.second());
    Run::new("replay").compare(&case);
}

fn lines_read_back() {
    let cases = cases::all();
    for order in &cases.orders {
        reads_back(&order.case);
    }
    for pair in &cases.pairs {
        reads_back(&pair.case);
    }
    reads_back(&Arrival {
        price: i64::MIN,
        kind: u64::MAX,
        shares: i64::MIN,
        ..Arrival::limit(&[], 0)
    });
    let mut random = Random::new(1);
    for _ in 0..10_000 {
        let arrival = generate::arrival(&mut random);
        reads_back(&arrival);
        let tally = Tally::of_numbers([0; 4].map(|_| random.number()));
        reads_back(&Tallied { arrival, tally });
        let message = generate::message(&mut random);
        reads_back(&message);
        reads_back(&Tallied {
            arrival: message,
            tally,
        });
        reads_back(&generate::pair(&mut random));
        reads_back(&generate::quote(&mut random));
        reads_back(&generate::crossing(&mut random));
    }
    for _ in 0..1_000 {
        calls_in_session_read_back(&mut random);
    }
}

fn calls_in_session_read_back(random: &mut Random) {
    let mut session = sessions::session(random);
    sessions::damage_session(random, &mut session);
    let login = sessions::login(random);
    reads_back(&Sent {
        login,
        arrival: generate::arrival(random),
        session: session.clone(),
    });
    reads_back(&Sent {
        login,
        arrival: generate::message(random),
        session: session.clone(),
    });
    let limits = sessions::limits(random);
    let limits = limits[..random.index(33)].to_vec();
    reads_back(&Start {
        limits,
        session: session.clone(),
    });
    reads_back(&Release { login, session });
}

fn reads_back<C: Case + Debug + PartialEq + FromStr<Err = String>>(case: &C) {
    let line = case.to_string();
    assert_eq!(read::<C>(&line), *case, "{line}");
}
