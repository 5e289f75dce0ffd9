//! The session limit: from 1,000,000 orders tallied in all, whoever sent them, orders and messages
//! get 12 and releases do not.

use super::{any_login, row, set_row, Asked, Call, EACH};
use compare::{
    generate::sessions::{fill, limits, small_session},
    numbers::BAD_TALLY,
    run::Run,
    session::{fresh_row, LOGINS, MOST_SEEN},
    slices::login::{ACCEPTED, LIMIT, RUNNING, SEEN},
};

/// Sums around the limit, and larger ones that would be small if cut short.
const SUMS: [u128; 16] = [
    MOST_SEEN - 2,
    MOST_SEEN - 1,
    MOST_SEEN,
    MOST_SEEN + 1,
    2 * MOST_SEEN,
    1 << 32,
    (1 << 32) + 5,
    1 << 63,
    u64::MAX as u128,
    1 << 64,
    (1 << 64) + 5,
    (1 << 64) + MOST_SEEN - 1,
    (1 << 64) + MOST_SEEN,
    (2 << 64) + 1,
    (31 << 64) + 1,
    LOGINS as u128 * u64::MAX as u128,
];

/// An unrestricted login's calls, and that they leave what they should of the sum.
fn hold(run: &mut Run, session: &[u64], sum: u128) {
    let login = any_login(&mut run.random);
    let mut session = session.to_vec();
    let mut own = row(&session, login as usize);
    own[RUNNING] = own[RUNNING].min(own[LIMIT] - 1);
    set_row(&mut session, login as usize, own);
    for asked in EACH {
        let call = Call::of(&mut run.random, asked);
        let is_full = asked != Asked::Release && sum >= MOST_SEEN;
        call.hold(run, login, &session, is_full.then_some(BAD_TALLY));
    }
}

#[test]
fn sums_over_many_logins() {
    let mut run = Run::new("sums of many");
    for _ in 0..200 {
        for sum in SUMS {
            let mut session = small_session(&mut run.random);
            fill(&mut run.random, &mut session, sum);
            hold(&mut run, &session, sum);
        }
    }
    run.finish(&[0, BAD_TALLY], 200 * 16 * 3);
    assert_eq!(run.given(BAD_TALLY), 200 * 14 * 2);
}

/// All of the sum is one login's, or half of it each of two; the others have seen nothing.
#[test]
fn sums_of_one_login_and_of_two() {
    let mut run = Run::new("sums of one and two");
    for one in 0..LOGINS {
        let other = (one + 1 + run.random.index(LOGINS - 1)) % LOGINS;
        for sum in [MOST_SEEN - 1, MOST_SEEN, 1 << 32, 1 << 63, (1 << 64) - 1] {
            let mut session: Vec<u64> = limits(&mut run.random)
                .into_iter()
                .flat_map(fresh_row)
                .collect();
            add_accepted(&mut session, one, sum as u64);
            hold(&mut run, &session, sum);
            // Twice that, which is 0 in 64 bits for one of the sums.
            add_accepted(&mut session, other, sum as u64);
            hold(&mut run, &session, 2 * sum);
        }
    }
    run.finish(&[0, BAD_TALLY], 32 * 5 * 2 * 3);
    assert_eq!(run.given(BAD_TALLY), 32 * 9 * 2);
}

fn add_accepted(session: &mut [u64], login: usize, orders: u64) {
    let mut own = row(session, login);
    own[ACCEPTED] += orders;
    own[SEEN] += orders;
    set_row(session, login, own);
}
