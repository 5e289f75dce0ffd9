//! Sessions: logins and limits, right sessions in any state, and damage of every kind.

use crate::{
    limits::wrong_lengths,
    random::Random,
    session::{Row, LENGTH, LIMITS, LOGINS, MOST_SEEN},
    slices::login::{self, ACCEPTED, LIMIT, REFUSED, REJECTED, RUNNING, SEEN},
};

/// Mostly one of a few, that they are restricted soon; now and then any, or one that there is not.
pub fn login(random: &mut Random) -> u64 {
    match random.index(16) {
        0 => *random.pick(&[32, 33, 63, 64, 256, (1 << 32) + 1, 1 << 63, u64::MAX]),
        1..4 => random.between(0, 31),
        _ => *random.pick(&[0, 1, 7, 31]),
    }
}

/// To start with, most of them soon reached.
pub fn limits(random: &mut Random) -> Vec<u64> {
    (0..LOGINS).map(|_| limit(random)).collect()
}

pub fn limit(random: &mut Random) -> u64 {
    match random.index(4) {
        0 => random.between(*LIMITS.start(), *LIMITS.end()),
        _ => *random.pick(&[1, 1, 2, 3, 5, 10, 9_999, 10_000]),
    }
}

/// A right session in any state; some have seen nearly as many as they may, or more.
pub fn session(random: &mut Random) -> Vec<u64> {
    let mut session = small_session(random);
    let near = MOST_SEEN + random.between(0, 14) as u128 - 10;
    match random.index(8) {
        0 | 1 => fill(random, &mut session, near),
        2 => {
            let word = *random.pick(&[1 << 32, 1 << 63, 1 << 64, 3 << 64_u128]);
            fill(random, &mut session, word + near - MOST_SEEN);
        }
        _ => (),
    }
    session
}

/// One that has seen less than it may.
pub fn small_session(random: &mut Random) -> Vec<u64> {
    let most = *random.pick(&[0, 1, 3, 100, 7_000]);
    let limits = limits(random);
    let rows = limits.iter().flat_map(|&limit| row(random, limit, most));
    rows.collect()
}

fn row(random: &mut Random, limit: u64, most: u64) -> Row {
    let running = match random.index(4) {
        0 => limit,
        1 => limit - 1,
        2 => 0,
        _ => random.between(0, limit),
    };
    let [refused, accepted, past] = [0; 3].map(|_| random.between(0, most));
    let rejected = past + running;
    let seen = refused + accepted + rejected;
    [limit, seen, refused, accepted, rejected, running]
}

/// Adds orders of any kind to any logins, until so many are seen in all.
pub fn fill(random: &mut Random, session: &mut [u64], total: u128) {
    let seen = session
        .chunks(login::LENGTH)
        .map(|row| u128::from(row[SEEN]));
    let mut missing = total.saturating_sub(seen.sum());
    while missing > 0 {
        let start = random.index(LOGINS) * login::LENGTH;
        let row = &mut session[start..start + login::LENGTH];
        let room = missing.min((u64::MAX - row[SEEN]).into()) as u64;
        let more = if random.index(4) == 0 {
            room
        } else {
            room.div_ceil(2)
        };
        row[SEEN] += more;
        row[*random.pick(&[REFUSED, ACCEPTED, REJECTED])] += more;
        missing -= u128::from(more);
    }
}

/// Makes something of one row wrong, or perhaps just unusual, or the slice of another length.
pub fn damage_session(random: &mut Random, session: &mut Vec<u64>) {
    let value = any_value(random);
    if random.index(8) == 0 || session.len() != LENGTH {
        return session.resize(*random.pick(&wrong_lengths(LENGTH)), value);
    }
    let start = random.index(LOGINS) * login::LENGTH;
    let row = &mut session[start..start + login::LENGTH];
    match random.index(8) {
        0 => row[LIMIT] = *random.pick(&[0, 1, row[RUNNING], 10_000, 10_001, value]),
        1 => {
            row[RUNNING] =
                *random.pick(&[row[LIMIT], row[LIMIT].wrapping_add(1), row[REJECTED], value])
        }
        2 => row[RUNNING] = row[REJECTED].wrapping_add(1),
        3 => {
            // The three come to the same number in 64 bits alone.
            let kinds = *random.pick(&[[REFUSED, ACCEPTED], [REFUSED, REJECTED]]);
            for kind in kinds {
                row[kind] = row[kind].wrapping_add(1 << 63);
            }
        }
        4 => {
            // It adds up, but its rejections are fewer than those since its release.
            row[SEEN] = row[SEEN].wrapping_sub(row[REJECTED]);
            row[REJECTED] = 0;
        }
        5 => {
            let place = random.index(login::LENGTH);
            let by = *random.pick(&[1, u64::MAX, 1 << 32, 1 << 63]);
            row[place] = row[place].wrapping_add(by);
        }
        _ => row[random.index(login::LENGTH)] = value,
    }
}

fn any_value(random: &mut Random) -> u64 {
    let any = random.number() >> random.index(64);
    *random.pick(&[0, 1, 10_000, 10_001, 1_000_000, 1 << 32, u64::MAX, any])
}
