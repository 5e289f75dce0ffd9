//! Lists of calls by all logins, each call held to the second implementation and to the ledger.

use super::{given, ledger::Ledger, row, times, Answered, Asked, Call, EACH};
use compare::{
    generate::{
        arrival, one_of_each_number,
        sessions::{damage_session, fill, limits, login, small_session},
    },
    numbers::{self, Kind, Of, ACCEPTED, BAD_LOGIN, BAD_TALLY, RESTRICTED_LOGIN},
    run::Run,
    session::{self, Sent, Start, LENGTH, LOGINS, MOST_SEEN},
    slices::login::{RUNNING, SEEN},
};

/// A list of calls: the session that it has led to, and the ledger beside it.
struct List {
    session: Vec<u64>,
    ledger: Ledger,
}

impl List {
    fn from(session: Vec<u64>) -> Self {
        List {
            ledger: Ledger::from(&session),
            session,
        }
    }

    /// From a start, over whatever was there.
    fn started(run: &mut Run) -> Self {
        let start = Start {
            limits: limits(&mut run.random),
            session: (0..LENGTH).map(|_| run.random.number()).collect(),
        };
        let after = run.compare(&start);
        assert_eq!(after.given, ACCEPTED);
        List::from(after.session)
    }

    fn seen(&self) -> u128 {
        let rows = (0..LOGINS).map(|login| row(&self.session, login));
        rows.map(|row| u128::from(row[SEEN])).sum()
    }

    fn put(&mut self, run: &mut Run, login: u64, call: &Call, answered: &mut Answered) {
        let expected = self.ledger.note(login, call);
        let answer = call.put(run, login, &mut self.session);
        assert_eq!(answer, expected, "login {login}");
        *answered.entry((call.asked(), answer.number)).or_default() += 1;
    }

    /// So many calls of any sort by any logins. Now and then one comes before with a session that
    /// is damaged, which is no part of the list.
    fn go_on(&mut self, run: &mut Run, calls: usize, answered: &mut Answered) {
        for _ in 0..calls {
            let (login, call) = (login(&mut run.random), Call::any(&mut run.random));
            if run.random.index(8) == 0 {
                let mut damaged = self.session.clone();
                damage_session(&mut run.random, &mut damaged);
                call.put(run, login, &mut damaged);
            }
            self.put(run, login, &call, answered);
        }
        self.ledger.hold(&self.session);
    }
}

/// Fails unless orders and messages got each number of theirs, 34 and 35, and releases 34 and 0.
fn require(answered: &Answered, least: u64) {
    for (asked, of) in [(Asked::Order, Of::Order), (Asked::Message, Of::Message)] {
        let of_sessions = [BAD_LOGIN, RESTRICTED_LOGIN];
        for number in numbers::of(of).into_iter().chain(of_sessions) {
            let times = given(answered, asked, number);
            assert!(times >= least, "{asked:?} {number}: {times}");
        }
    }
    for number in [BAD_LOGIN, ACCEPTED] {
        assert!(given(answered, Asked::Release, number) >= least, "{number}");
    }
}

#[test]
fn lists_from_a_start() {
    let mut run = Run::new("lists from a start");
    let mut answered = Answered::new();
    for _ in 0..300 {
        let calls = run.random.index(801);
        List::started(&mut run).go_on(&mut run, calls, &mut answered);
    }
    run.report();
    require(&answered, 20);
    for asked in EACH {
        // A session that calls alone have led to from its start is right.
        assert_eq!(given(&answered, asked, BAD_TALLY), 0);
    }
    assert!(run.given(BAD_TALLY) > 5_000 && run.given(RESTRICTED_LOGIN) > 5_000);
    assert!(times(&answered, Asked::Order, Kind::Rejected) > 2_000);
    assert!(times(&answered, Asked::Message, Kind::Rejected) > 2_000);
}

/// Lists from right sessions in any state that have seen less than they may.
#[test]
fn lists_from_any_state() {
    let mut run = Run::new("lists from any state");
    let mut answered = Answered::new();
    for _ in 0..2_000 {
        let mut list = List::from(small_session(&mut run.random));
        list.go_on(&mut run, 60, &mut answered);
    }
    run.report();
    require(&answered, 10);
}

/// Lists that begin close to the session limit and go on beyond it, where releases still count.
#[test]
fn lists_across_the_limit() {
    let mut run = Run::new("across the session limit");
    let mut answered = Answered::new();
    let mut released = 0;
    for round in 0..1_000 {
        let mut session = small_session(&mut run.random);
        fill(&mut run.random, &mut session, MOST_SEEN - 1 - round % 12);
        let mut list = List::from(session);
        while list.seen() < MOST_SEEN {
            list.go_on(&mut run, 10, &mut answered);
        }
        list.go_on(&mut run, 40, &mut answered);
        assert_eq!(list.seen(), MOST_SEEN);
        for login in [0, 1, 7, 31] {
            released += u64::from(row(&list.session, login)[RUNNING] > 0);
            list.put(&mut run, login as u64, &Call::Release, &mut answered);
            assert_eq!(row(&list.session, login)[RUNNING], 0);
        }
        list.ledger.hold(&list.session);
    }
    run.report();
    for asked in [Asked::Order, Asked::Message] {
        assert!(given(&answered, asked, BAD_TALLY) > 10_000, "{asked:?}");
        assert!(given(&answered, asked, ACCEPTED) > 100, "{asked:?}");
        assert!(given(&answered, asked, RESTRICTED_LOGIN) > 100, "{asked:?}");
    }
    assert_eq!(given(&answered, Asked::Release, BAD_TALLY), 0);
    assert!(released > 1_000);
}

/// One list of a million orders from a start, and beyond. The arrivals are few, so the second
/// implementation is asked for each of them once. A login that is restricted is released.
#[test]
fn one_list_to_the_limit() {
    const BEYOND: u64 = 1_000;
    let mut run = Run::new("to the session limit");
    let pool = one_of_each_number(&mut run.random, Of::Order, arrival);
    let mut session = List::started(&mut run).session;
    let (mut tallied, mut releases) = (0, 0);
    while tallied < MOST_SEEN as u64 || run.given(BAD_TALLY) < BEYOND {
        let (arrival, plain) = run.random.pick(&pool).clone();
        let sent = Sent {
            login: super::any_login(&mut run.random),
            arrival,
            session: session.clone(),
        };
        let expected = session::add(sent.login, &session, plain);
        let after = run.expect(&sent, expected, "the second implementation");
        session = after.session;
        match after.given.number {
            BAD_TALLY => assert_eq!(tallied, MOST_SEEN as u64),
            RESTRICTED_LOGIN => {
                Call::Release.put(&mut run, sent.login, &mut session);
                releases += 1;
            }
            number => {
                assert_eq!(number, plain.number);
                tallied += 1;
            }
        }
    }
    run.report();
    assert_eq!(run.given(BAD_TALLY), BEYOND);
    assert!(releases > 10_000);
    for number in numbers::of(Of::Order) {
        assert!(run.given(number) > 10_000, "number {number}");
    }
}
