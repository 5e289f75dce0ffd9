//! What the test itself knows of a session: for each login all that was counted of it, one after
//! the other. What a call must get, and what a row must hold, is counted from that anew each time.

use super::{row, Call};
use compare::{
    arrival::Answer,
    numbers::{kind, Kind, BAD_LOGIN, BAD_TALLY, RESTRICTED_LOGIN},
    session::{Row, LOGINS},
    slices::login::{LIMIT, SEEN},
};

const SESSION_LIMIT: u64 = 1_000_000;

pub struct Ledger {
    begin: Vec<u64>,
    /// The kinds of orders and messages, and none for a release.
    histories: Vec<Vec<Option<Kind>>>,
    counted: u64,
}

impl Ledger {
    /// From a right session, which has not seen as many as it may.
    pub fn from(begin: &[u64]) -> Self {
        let seen = (0..LOGINS).map(|login| row(begin, login)[SEEN]);
        Ledger {
            begin: begin.to_vec(),
            histories: vec![Vec::new(); LOGINS],
            counted: seen.sum(),
        }
    }

    /// What the call must get, which is noted where it counts.
    pub fn note(&mut self, login: u64, call: &Call) -> Answer {
        let plain = call.plain();
        if login >= LOGINS as u64 {
            return Answer::refusal(BAD_LOGIN);
        }
        let login = login as usize;
        let Some(answer) = plain else {
            self.histories[login].push(None);
            return Answer::refusal(0);
        };
        if self.counted >= SESSION_LIMIT {
            return Answer::refusal(BAD_TALLY);
        }
        let [limit, .., running] = self.row(login);
        if running == limit {
            return Answer::refusal(RESTRICTED_LOGIN);
        }
        self.histories[login].push(Some(kind(answer.number)));
        self.counted += 1;
        answer
    }

    /// The row of a login, by all that was noted of it.
    pub fn row(&self, login: usize) -> Row {
        let [_, seen, refused, accepted, rejected, running] = row(&self.begin, login);
        let history = &self.histories[login];
        let count = |of| count(history, of);
        let last_release = history.iter().rposition(Option::is_none);
        let running = match last_release {
            Some(place) => self::count(&history[place..], Kind::Rejected),
            None => running + count(Kind::Rejected),
        };
        let kinds = [Kind::Refused, Kind::Accepted, Kind::Rejected].map(count);
        [
            self.begin[super::place(login, LIMIT)],
            seen + kinds.iter().sum::<u64>(),
            refused + kinds[0],
            accepted + kinds[1],
            rejected + kinds[2],
            running,
        ]
    }

    /// Holds every row of the session.
    pub fn hold(&self, session: &[u64]) {
        for login in 0..LOGINS {
            assert_eq!(row(session, login), self.row(login), "login {login}");
        }
        assert_eq!(session.len(), self.begin.len());
    }
}

fn count(history: &[Option<Kind>], of: Kind) -> u64 {
    history.iter().filter(|noted| **noted == Some(of)).count() as u64
}
