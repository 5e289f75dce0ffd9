//! Wrong sessions: each number of each row at and beside its limits, rows that are wrong in two
//! numbers, slices of every length, logins that there are not, and which number comes first.

use super::{any_login, place, row, set_row, Asked, Call, BEYOND, EACH};
use compare::{
    generate::{
        arrival, message, one_of_each_number,
        sessions::{damage_session, session, small_session},
    },
    limits::every,
    numbers::{self, first, Of, ACCEPTED, BAD_LOGIN, BAD_TALLY, RESTRICTED_LOGIN},
    random::Random,
    run::Run,
    session::{Row, LENGTH, LOGINS},
    slices::login::{self, LIMIT, REFUSED, REJECTED, RUNNING, SEEN},
};

/// An order, a message and a release, which must get 12 where the session is wrong. The login is
/// the wrong row's own or any other.
fn hold(run: &mut Run, session: &[u64], wrong_row: usize, is_wrong: bool) {
    let other = any_login(&mut run.random);
    let login = *run.random.pick(&[wrong_row as u64, other]);
    for asked in EACH {
        let own = row(session, login as usize);
        let is_restricted = asked != Asked::Release && own[RUNNING] == own[LIMIT];
        let faults = [(BAD_TALLY, is_wrong), (RESTRICTED_LOGIN, is_restricted)];
        Call::of(&mut run.random, asked).hold(run, login, session, first(&faults));
    }
}

/// Each of the 192 numbers at 0, at its login's limit, at one more, at the largest, and others.
#[test]
fn every_number_of_a_session() {
    let mut run = Run::new("numbers of sessions");
    let (mut right, mut wrong) = (0, 0);
    for _ in 0..20 {
        let session = small_session(&mut run.random);
        for at in 0..LENGTH {
            let own = row(&session, at / login::LENGTH);
            for value in values(&mut run.random, own, at % login::LENGTH) {
                let mut session = session.clone();
                session[at] = value;
                let is_wrong = is_made_wrong(own, at % login::LENGTH, value);
                hold(&mut run, &session, at / login::LENGTH, is_wrong);
                *(if is_wrong { &mut wrong } else { &mut right }) += 1;
            }
        }
    }
    run.finish(&[ACCEPTED, BAD_TALLY, RESTRICTED_LOGIN], 20 * 192 * 13 * 3);
    assert_eq!(run.given(BAD_TALLY), 3 * wrong);
    assert!(right > 5_000);
}

fn values(random: &mut Random, own: Row, number: usize) -> [u64; 13] {
    let (limit, value) = (own[LIMIT], own[number]);
    [
        0,
        1,
        limit,
        limit + 1,
        own[REJECTED],
        own[REJECTED] + 1,
        10_000,
        10_001,
        value + 1,
        value.wrapping_sub(1),
        value + (1 << 32),
        u64::MAX,
        random.number(),
    ]
}

/// Whether a right row is wrong with one number of it another.
fn is_made_wrong(own: Row, number: usize, value: u64) -> bool {
    match number {
        LIMIT => value == 0 || value > 10_000 || value < own[RUNNING],
        RUNNING => value > own[LIMIT] || value > own[REJECTED],
        _ => value != own[number],
    }
}

/// A change of a right row: whether it makes it wrong.
type Change = (&'static str, bool, fn(&mut Row));

const CHANGES: [Change; 9] = [
    ("one more refused", false, |row| {
        add(row, [SEEN, REFUSED], 1)
    }),
    ("one more rejected before a release", false, |row| {
        add(row, [SEEN, REJECTED], 1)
    }),
    ("the sum goes around the word", true, |row| {
        add(row, [REFUSED, login::ACCEPTED], 1 << 63)
    }),
    ("the sum goes around, the last two", true, |row| {
        add(row, [login::ACCEPTED, REJECTED], 1 << 63)
    }),
    ("right in 32 bits", true, |row| {
        add(row, [REFUSED; 2], 1 << 31)
    }),
    ("all at the most", true, |row| {
        *row = [10_000, u64::MAX, u64::MAX, u64::MAX, u64::MAX, 0]
    }),
    ("running above rejected, not above the limit", true, |row| {
        *row = [10, 7, 1, 1, 5, 6]
    }),
    ("running above the limit, not above rejected", true, |row| {
        *row = [5, 8, 1, 1, 6, 6]
    }),
    ("seen leaves running out", true, |row| {
        row[REJECTED] += 1;
        row[RUNNING] = 1;
    }),
];

fn add(row: &mut Row, places: [usize; 2], by: u64) {
    for place in places {
        row[place] = row[place].wrapping_add(by);
    }
}

#[test]
fn rows_with_two_numbers_changed() {
    let mut run = Run::new("rows of sessions");
    for (name, is_wrong, change) in CHANGES {
        for changed in 0..LOGINS {
            let before = run.given(BAD_TALLY);
            for _ in 0..10 {
                let mut session = small_session(&mut run.random);
                let mut own = row(&session, changed);
                change(&mut own);
                set_row(&mut session, changed, own);
                hold(&mut run, &session, changed, is_wrong);
            }
            let times = run.given(BAD_TALLY) - before;
            assert_eq!(times, if is_wrong { 30 } else { 0 }, "{name}");
        }
    }
    run.finish(&[ACCEPTED, BAD_TALLY, RESTRICTED_LOGIN], 9 * 32 * 10 * 3);
}

/// Right sessions and damaged ones of any sort, several times perhaps, and any login.
#[test]
fn damage_of_every_sort() {
    let mut run = Run::new("damaged sessions");
    for _ in 0..40_000 {
        let mut session = session(&mut run.random);
        while run.random.index(3) != 0 {
            damage_session(&mut run.random, &mut session);
        }
        let beyond = *run.random.pick(&BEYOND);
        let own = any_login(&mut run.random);
        let login = *run.random.pick(&[own, own, own, beyond]);
        Call::any(&mut run.random).put(&mut run, login, &mut session);
    }
    run.report();
    for number in [numbers::of(Of::Session), numbers::of(Of::Release)].concat() {
        assert!(run.given(number) > 1_000, "{number}");
    }
}

/// A right session cut off, or with more rows behind it, right ones too.
#[test]
fn every_length_of_a_session() {
    let mut run = Run::new("lengths of sessions");
    for length in 0..=400 {
        for behind in [0, 1, u64::MAX] {
            let mut session = small_session(&mut run.random);
            let twice = [&session[..], &session].concat();
            hold_length(&mut run, twice, length);
            session.resize(length, behind);
            hold_length(&mut run, session, length);
        }
    }
    run.finish(&[ACCEPTED, BAD_TALLY], 401 * 3 * 2 * 3);
    assert_eq!(run.given(BAD_TALLY), 400 * 3 * 2 * 3);
}

fn hold_length(run: &mut Run, mut session: Vec<u64>, length: usize) {
    session.resize(length, 0);
    if length == LENGTH {
        return hold(run, &session, 0, false);
    }
    for asked in EACH {
        let (login, call) = (any_login(&mut run.random), Call::of(&mut run.random, asked));
        call.hold(run, login, &session, Some(BAD_TALLY));
    }
}

/// Every number of orders and of messages, with every choice of what turns them away before: the
/// login, the session, and that the login is restricted.
#[test]
fn first_number_first() {
    let mut run = Run::new("first numbers");
    let orders = one_of_each_number(&mut run.random, Of::Order, arrival).into_iter();
    let messages = one_of_each_number(&mut run.random, Of::Message, message).into_iter();
    let orders = orders.map(|(order, _)| Call::Order(order));
    let messages = messages.map(|(message, _)| Call::Message(message));
    for call in orders.chain(messages).chain([Call::Release]) {
        for [is_beyond, is_wrong, is_restricted] in every(&[false, true]) {
            for login in 0..=40 {
                if (login >= LOGINS as u64) == is_beyond {
                    hold_first(&mut run, &call, login, is_wrong, is_restricted);
                }
            }
            for login in BEYOND.into_iter().filter(|_| is_beyond) {
                hold_first(&mut run, &call, login, is_wrong, is_restricted);
            }
        }
    }
    let numbers = [ACCEPTED, 20, 30, BAD_TALLY, BAD_LOGIN, RESTRICTED_LOGIN];
    run.finish(&numbers, 36 * (4 * 17 + 4 * 32));
}

fn hold_first(run: &mut Run, call: &Call, login: u64, is_wrong: bool, is_restricted: bool) {
    let mut session: Vec<u64> = [3, 5, 1, 1, 3, 2].repeat(LOGINS);
    let own = (login % LOGINS as u64) as usize;
    session[place(own, RUNNING)] += u64::from(is_restricted);
    let wrong = run.random.index(LENGTH);
    session[wrong] += if is_wrong { 10_000 } else { 0 };
    let is_order = call.asked() != Asked::Release;
    let faults = [
        (BAD_LOGIN, login >= LOGINS as u64),
        (BAD_TALLY, is_wrong),
        (RESTRICTED_LOGIN, is_order && is_restricted),
    ];
    call.hold(run, login, &session, first(&faults));
}
