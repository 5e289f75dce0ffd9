//! Sessions put to both implementations, call for call: the number, the lent numbers and every
//! number of the session after it. Lists of calls by all logins, held to a ledger that the test
//! keeps by itself; wrong sessions of every sort and length; starts; the session limit; and that
//! what others do changes nothing for a login.

mod isolation;
mod ledger;
mod limit;
mod lists;
mod starts;
mod wrong;

use compare::{
    arrival::{Answer, Arrival},
    case::{Arriving, Case},
    generate::{arrival, message},
    message::Message,
    numbers::{kind, Kind},
    random::Random,
    run::Run,
    session::{Release, Row, Sent, LOGINS},
    slices::login,
};
use std::collections::BTreeMap;

/// What a login, or the host for it, can ask of a session.
#[derive(Clone)]
enum Call {
    Order(Arrival),
    Message(Message),
    Release,
}

/// What was asked.
#[derive(Clone, Copy, Debug, PartialEq, Eq, PartialOrd, Ord)]
enum Asked {
    Order,
    Message,
    Release,
}

const EACH: [Asked; 3] = [Asked::Order, Asked::Message, Asked::Release];

/// How often each was answered with each number.
type Answered = BTreeMap<(Asked, u64), u64>;

impl Call {
    /// One of some sort, the order or the message made up.
    fn of(random: &mut Random, asked: Asked) -> Self {
        match asked {
            Asked::Order => Call::Order(arrival(random)),
            Asked::Message => Call::Message(message(random)),
            Asked::Release => Call::Release,
        }
    }

    /// Any, mostly an order or a message.
    fn any(random: &mut Random) -> Self {
        let asked = match random.index(10) {
            0 => Asked::Release,
            1..5 => Asked::Message,
            _ => Asked::Order,
        };
        Call::of(random, asked)
    }

    fn asked(&self) -> Asked {
        match self {
            Call::Order(_) => Asked::Order,
            Call::Message(_) => Asked::Message,
            Call::Release => Asked::Release,
        }
    }

    /// What an order or a message gets without a session; none for a release.
    fn plain(&self) -> Option<Answer> {
        match self {
            Call::Order(arrival) => Some(arrival.library()),
            Call::Message(message) => Some(message.library()),
            Call::Release => None,
        }
    }

    /// Puts it to both, and leaves the session that they leave. A release has its number alone.
    fn put(&self, run: &mut Run, login: u64, session: &mut Vec<u64>) -> Answer {
        match self {
            Call::Order(arrival) => send(run, login, arrival, session),
            Call::Message(message) => send(run, login, message, session),
            Call::Release => {
                let after = run.compare(&Release {
                    login,
                    session: session.clone(),
                });
                *session = after.session;
                Answer::refusal(after.given)
            }
        }
    }

    /// The same, held to a number: one that turns it away leaves the session as it was.
    fn hold(&self, run: &mut Run, login: u64, session: &[u64], number: Option<u64>) {
        let mut after = session.to_vec();
        let answer = self.put(run, login, &mut after);
        match number {
            Some(number) => assert_eq!((answer, &after[..]), (Answer::refusal(number), session)),
            None => assert_eq!(answer, self.plain().unwrap_or(Answer::refusal(0))),
        }
    }
}

fn send<A: Arriving>(run: &mut Run, login: u64, arrival: &A, session: &mut Vec<u64>) -> Answer {
    let after = run.compare(&Sent {
        login,
        arrival: arrival.clone(),
        session: session.clone(),
    });
    *session = after.session;
    after.given
}

/// The place of a login's number in the session.
fn place(of_login: usize, number: usize) -> usize {
    of_login * login::LENGTH + number
}

fn row(session: &[u64], of_login: usize) -> Row {
    let start = place(of_login, 0);
    let row = &session[start..start + login::LENGTH];
    row.try_into().expect("a row")
}

fn set_row(session: &mut [u64], of_login: usize, row: Row) {
    let start = place(of_login, 0);
    session[start..start + login::LENGTH].copy_from_slice(&row);
}

/// Logins that there are not, some of which would be some other if cut short.
const BEYOND: [u64; 8] = [
    32,
    33,
    40,
    256,
    (1 << 16) + 7,
    (1 << 32) + 1,
    1 << 63,
    u64::MAX,
];

fn any_login(random: &mut Random) -> u64 {
    random.index(LOGINS) as u64
}

/// How often one sort of call was answered with numbers of some kind.
fn times(answered: &Answered, asked: Asked, of: Kind) -> u64 {
    let of_kind = answered
        .iter()
        .filter(|((what, number), _)| *what == asked && kind(*number) == of);
    of_kind.map(|(_, times)| times).sum()
}

fn given(answered: &Answered, asked: Asked, number: u64) -> u64 {
    answered.get(&(asked, number)).copied().unwrap_or(0)
}
