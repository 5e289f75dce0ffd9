//! That what others do changes nothing for a login: two lists of calls from a start each, in which
//! it has the same limit and the same calls in the same sequence.

use super::{any_login, row, Answered, Call, BEYOND, EACH};
use compare::{
    arrival::Answer,
    generate::sessions::limits,
    limits::EXTREMES,
    numbers::{kind, Kind, ACCEPTED, BAD_SETTING, BAD_TALLY, RESTRICTED_LOGIN},
    random::Random,
    run::Run,
    session::{Row, Start, LENGTH, LOGINS},
};

/// What a login sees: the answer to each call of its own, and its row after it.
type View = Vec<(Answer, Row)>;

/// Its calls, with any number of calls by others before each.
fn view(run: &mut Run, login: u64, calls: &[Call], session: &mut Vec<u64>) -> View {
    let mut view = View::new();
    for call in calls {
        while run.random.index(4) != 0 {
            let (other, others) = (another(&mut run.random, login), Call::any(&mut run.random));
            others.put(run, other, session);
        }
        let answer = call.put(run, login, session);
        view.push((answer, row(session, login as usize)));
    }
    view
}

/// Any login but this one, or one that there is not.
fn another(random: &mut Random, login: u64) -> u64 {
    let others = (0..LOGINS as u64).filter(|&other| other != login);
    match random.index(16) {
        0 => *random.pick(&BEYOND),
        1..4 => (login + 1) % LOGINS as u64,
        _ => *random.pick(&others.collect::<Vec<_>>()),
    }
}

fn started(run: &mut Run, limits: Vec<u64>, number: u64) -> Vec<u64> {
    let session = (0..LENGTH).map(|_| run.random.number()).collect();
    let after = run.compare(&Start { limits, session });
    assert_eq!(after.given, number);
    after.session
}

/// Two sessions in which a login has the same limit, which is 0 where both starts failed.
fn two_starts(run: &mut Run, login: u64, have_failed: bool) -> [Vec<u64>; 2] {
    let own = *run.random.pick(&[1, 2, 3, 4, 6, 10_000]);
    [(); 2].map(|()| {
        let mut limits = limits(&mut run.random);
        limits[login as usize] = own;
        if !have_failed {
            return started(run, limits, ACCEPTED);
        }
        let place = run.random.index(LOGINS);
        limits[place] = *run.random.pick(&[&[0, 10_001], &EXTREMES[..]].concat());
        started(run, limits, BAD_SETTING)
    })
}

#[test]
fn others_change_nothing() {
    let mut run = Run::new("isolation");
    let mut answered = Answered::new();
    let mut rows_apart = 0;
    for round in 0..1_500 {
        let login = any_login(&mut run.random);
        let length = 5 + run.random.index(20);
        let calls: Vec<Call> = (0..length).map(|_| Call::any(&mut run.random)).collect();
        let [mut one, mut other] = two_starts(&mut run, login, round % 50 == 0);
        let seen = view(&mut run, login, &calls, &mut one);
        let seen_again = view(&mut run, login, &calls, &mut other);
        assert_eq!(seen, seen_again, "login {login}");
        rows_apart += (0..LOGINS)
            .filter(|&at| row(&one, at) != row(&other, at))
            .count();
        for (call, (answer, _)) in calls.iter().zip(seen) {
            *answered.entry((call.asked(), answer.number)).or_default() += 1;
        }
    }
    run.report();
    println!("isolation: {rows_apart} rows of others differ");
    assert!(rows_apart > 1_500 * 15);
    for asked in EACH {
        assert!(super::given(&answered, asked, BAD_TALLY) >= 10, "{asked:?}");
    }
    let restricted = super::given(&answered, super::Asked::Order, RESTRICTED_LOGIN);
    let rejected = super::times(&answered, super::Asked::Order, Kind::Rejected);
    assert!(
        restricted > 500 && rejected > 500,
        "{restricted}, {rejected}"
    );
    assert!(answered
        .keys()
        .any(|&(_, number)| kind(number) == Kind::Accepted));
}
