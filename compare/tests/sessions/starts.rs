//! Starts: limits of every length and of every value at each place, over sessions of every length.

use super::place;
use compare::{
    generate::sessions::limits,
    limits::EXTREMES,
    numbers::{self, Of, ACCEPTED, BAD_SETTING, BAD_TALLY},
    run::Run,
    session::{Start, LENGTH, LOGINS},
    slices::login,
};

/// Starts over a session that holds anything, and holds the number and every number of the session.
fn hold(run: &mut Run, limits: &[u64], length: usize, number: u64) {
    let session: Vec<u64> = (0..length).map(|_| run.random.number()).collect();
    let before = session.clone();
    let limits = limits.to_vec();
    let after = run.compare(&Start { limits, session });
    assert_eq!(after.given, number);
    match number {
        BAD_TALLY => assert_eq!(after.session, before),
        BAD_SETTING => assert_eq!(after.session, [0; LENGTH]),
        _ => hold_started(&after.session),
    }
}

/// Nothing is there but limits.
fn hold_started(session: &[u64]) {
    for login in 0..LOGINS {
        let limit = session[place(login, login::LIMIT)];
        assert_eq!(super::row(session, login), [limit, 0, 0, 0, 0, 0]);
        assert!((1..=10_000).contains(&limit));
    }
}

#[test]
fn every_limit_at_every_place() {
    let mut run = Run::new("limits of starts");
    let right = [1, 2, 9_999, 10_000];
    let wrong = [0, 10_001, 65_536 + 5, u64::MAX - 9_999].into_iter();
    let wrong: Vec<u64> = wrong.chain(EXTREMES.map(|extreme| extreme | 5)).collect();
    for place in 0..LOGINS {
        for _ in 0..20 {
            let mut limits = limits(&mut run.random);
            for limit in right {
                limits[place] = limit;
                hold(&mut run, &limits, LENGTH, ACCEPTED);
            }
            for &limit in &wrong {
                limits[place] = limit;
                hold(&mut run, &limits, LENGTH, BAD_SETTING);
                hold(&mut run, &limits, LENGTH - 1, BAD_TALLY);
            }
        }
    }
    for limit in right {
        hold(&mut run, &[limit; LOGINS], LENGTH, ACCEPTED);
    }
    run.finish(&numbers::of(Of::Start), 32 * 20 * 20);
}

/// Limits that are not 32 are refused whatever they hold; before that, a session that is not 192.
#[test]
fn every_length_of_limits_and_session() {
    let mut run = Run::new("lengths of starts");
    for limits_length in (0..=70).chain([LENGTH, LOGINS + 256]) {
        let mut limits = limits(&mut run.random);
        limits.resize(limits_length, 1);
        let number = if limits_length == LOGINS {
            ACCEPTED
        } else {
            BAD_SETTING
        };
        hold(&mut run, &limits, LENGTH, number);
        for session_length in (0..=400).filter(|&length| length != LENGTH) {
            hold(&mut run, &limits, session_length, BAD_TALLY);
        }
    }
    run.finish(&numbers::of(Of::Start), 73 * 401);
}
