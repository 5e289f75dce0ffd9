//! A session of 32 logins (document 02, S-6): what a start, an order of a login and a release are
//! handed and leave, a line of text for each, and the second implementation. There a login is not
//! kept as its row of numbers: it has so many rejections left until it is restricted, and so many
//! that no longer count after releases. A row of which that cannot be said is a wrong one.

use crate::{
    arrival::{Answer, Arrival},
    case::Case,
    numbers::{first, kind, Kind, ACCEPTED, BAD_LOGIN, BAD_SETTING, BAD_TALLY, RESTRICTED_LOGIN},
    slices::login,
    text::{just, list, numbers},
};
use std::{fmt, ops::RangeInclusive, str::FromStr};

/// The first word of a line that holds an order or a message of a login, a release, or a start.
pub const SENT: &str = "sent";
pub const RELEASE: &str = "release";
pub const START: &str = "start";

pub const LOGINS: usize = 32;

/// The numbers of a session.
pub const LENGTH: usize = LOGINS * login::LENGTH;

pub const MOST_SEEN: u128 = 1_000_000;

pub const LIMITS: RangeInclusive<u64> = 1..=10_000;

/// The numbers of one login, as they are lent.
pub type Row = [u64; login::LENGTH];

/// What a login sends: an order on slices, or a message with one. The session may hold anything and
/// be of any length.
#[derive(Clone, Debug, PartialEq, Eq)]
pub struct Sent<A = Arrival> {
    pub login: u64,
    pub arrival: A,
    pub session: Vec<u64>,
}

#[derive(Clone, Debug, PartialEq, Eq)]
pub struct Release {
    pub login: u64,
    pub session: Vec<u64>,
}

#[derive(Clone, Debug, PartialEq, Eq)]
pub struct Start {
    pub limits: Vec<u64>,
    pub session: Vec<u64>,
}

/// What a call gives, and the session that it leaves.
#[derive(Clone, Debug, PartialEq, Eq)]
pub struct After<G> {
    pub given: G,
    pub session: Vec<u64>,
}

pub fn check<A: Case<Answer = Answer>>(sent: &Sent<A>) -> After<Answer> {
    add(sent.login, &sent.session, sent.arrival.second())
}

/// What becomes of a login's order that gets some answer without a session.
pub fn add(login: u64, session: &[u64], answer: Answer) -> After<Answer> {
    match admitted(login, session, true) {
        Ok(logins) => After {
            given: answer,
            session: with(logins, login, |one| one.count(kind(answer.number))),
        },
        Err(number) => After {
            given: Answer::refusal(number),
            session: session.to_vec(),
        },
    }
}

pub fn release(release: &Release) -> After<u64> {
    match admitted(release.login, &release.session, false) {
        Ok(logins) => After {
            given: ACCEPTED,
            session: with(logins, release.login, Login::release),
        },
        Err(number) => After {
            given: number,
            session: release.session.clone(),
        },
    }
}

pub fn start(start: &Start) -> After<u64> {
    let Start { limits, session } = start;
    let are_limits = limits.len() == LOGINS && limits.iter().all(|limit| LIMITS.contains(limit));
    let faults = [
        (BAD_TALLY, session.len() != LENGTH),
        (BAD_SETTING, !are_limits),
    ];
    let given = first(&faults).unwrap_or(ACCEPTED);
    let session = match given {
        BAD_TALLY => session.clone(),
        BAD_SETTING => vec![0; LENGTH],
        _ => limits.iter().flat_map(|&limit| fresh_row(limit)).collect(),
    };
    After { given, session }
}

pub fn fresh_row(limit: u64) -> Row {
    [limit, 0, 0, 0, 0, 0]
}

/// The logins of the session, or the number that turns an order or a release of one of them away.
fn admitted(login: u64, session: &[u64], is_order: bool) -> Result<Vec<Login>, u64> {
    let logins = logins(session);
    let one = logins.as_ref().and_then(|logins| logins.get(place(login)?));
    let is_full = |logins: &Vec<Login>| logins.iter().map(Login::seen).sum::<u128>() >= MOST_SEEN;
    let faults = [
        (BAD_LOGIN, place(login).is_none()),
        (BAD_TALLY, logins.is_none()),
        (BAD_TALLY, is_order && logins.as_ref().is_some_and(is_full)),
        (
            RESTRICTED_LOGIN,
            is_order && one.is_some_and(|one| one.left == 0),
        ),
    ];
    match first(&faults) {
        Some(number) => Err(number),
        None => Ok(logins.expect("or it was turned away")),
    }
}

fn place(login: u64) -> Option<usize> {
    (0..LOGINS).find(|&place| place as u64 == login)
}

/// None unless all of them are right, and just so many.
fn logins(session: &[u64]) -> Option<Vec<Login>> {
    let logins: Option<Vec<Login>> = session.chunks(login::LENGTH).map(Login::of).collect();
    logins.filter(|logins| logins.len() == LOGINS)
}

/// The session after something happened to one login.
fn with(mut logins: Vec<Login>, login: u64, happen: impl Fn(&mut Login)) -> Vec<u64> {
    happen(&mut logins[login as usize]);
    logins.iter().flat_map(Login::row).collect()
}

struct Login {
    limit: u64,
    refused: u64,
    accepted: u64,
    /// The rejections before its last release.
    past: u64,
    /// The rejections until it is restricted.
    left: u64,
}

impl Login {
    fn of(row: &[u64]) -> Option<Self> {
        let &[limit, seen, refused, accepted, rejected, running] = row else {
            return None;
        };
        let one = Login {
            limit,
            refused,
            accepted,
            past: rejected.checked_sub(running)?,
            left: limit.checked_sub(running)?,
        };
        let is_right = LIMITS.contains(&limit) && one.seen() == seen.into();
        is_right.then_some(one)
    }

    fn seen(&self) -> u128 {
        let kinds = [self.refused, self.accepted, self.past, self.running()];
        kinds.map(u128::from).iter().sum()
    }

    fn running(&self) -> u64 {
        self.limit - self.left
    }

    fn count(&mut self, kind: Kind) {
        match kind {
            Kind::Refused => self.refused += 1,
            Kind::Accepted => self.accepted += 1,
            Kind::Rejected => self.left -= 1,
        }
    }

    fn release(&mut self) {
        self.past += self.running();
        self.left = self.limit;
    }

    fn row(&self) -> Row {
        let rejected = self.past + self.running();
        let seen = self.refused + self.accepted + rejected;
        let running = self.running();
        [
            self.limit,
            seen,
            self.refused,
            self.accepted,
            rejected,
            running,
        ]
    }
}

/// What is sent, its words, the login and the session.
impl<A: fmt::Display> fmt::Display for Sent<A> {
    fn fmt(&self, f: &mut fmt::Formatter) -> fmt::Result {
        let session = list(&self.session);
        write!(f, "{SENT} {} {} {session}", self.arrival, self.login)
    }
}

impl<A: FromStr<Err = String>> FromStr for Sent<A> {
    type Err = String;

    fn from_str(line: &str) -> Result<Self, String> {
        let parts = line.trim().strip_prefix(SENT).unwrap_or_default();
        let parts: Vec<&str> = parts.rsplitn(3, ' ').collect();
        let [session, login, arrival] = parts[..] else {
            return Err(format!("not '{SENT}', an arrival, login, session: {line}"));
        };
        let [login] = just(login)?;
        Ok(Sent {
            login,
            arrival: arrival.parse()?,
            session: numbers(session)?,
        })
    }
}

/// Three words: that it is a release, the login, the session.
impl fmt::Display for Release {
    fn fmt(&self, f: &mut fmt::Formatter) -> fmt::Result {
        write!(f, "{RELEASE} {} {}", self.login, list(&self.session))
    }
}

impl FromStr for Release {
    type Err = String;

    fn from_str(line: &str) -> Result<Self, String> {
        let (login, session) = before_session(RELEASE, line)?;
        let [login] = just(login)?;
        Ok(Release { login, session })
    }
}

/// Three words: that it is a start, the limits, the session.
impl fmt::Display for Start {
    fn fmt(&self, f: &mut fmt::Formatter) -> fmt::Result {
        write!(f, "{START} {} {}", list(&self.limits), list(&self.session))
    }
}

impl FromStr for Start {
    type Err = String;

    fn from_str(line: &str) -> Result<Self, String> {
        let (limits, session) = before_session(START, line)?;
        let limits = numbers(limits)?;
        Ok(Start { limits, session })
    }
}

/// The word between the first one and the session.
fn before_session<'a>(first: &str, line: &'a str) -> Result<(&'a str, Vec<u64>), String> {
    match line.split_whitespace().collect::<Vec<&str>>()[..] {
        [word, between, session] if word == first => Ok((between, numbers(session)?)),
        _ => Err(format!("not '{first}' and two words: {line}")),
    }
}
