//! Inputs to begin with: in the harness's raw form the cases of `cases/*.desk`, and some made up as
//! for the comparison; in its shaped form any bytes.

use compare::{
    arrival::Arrival,
    cases,
    crossing::Crossing,
    generate::{self, legs_of, list_of, reversed, sessions},
    osi,
    pair::Pair,
    quote::Quote,
    random::{seed, Random},
    Parts,
};
use std::{ffi::CStr, fs, path::Path};

/// So many cases of each entry are made up in the raw form, and so many rounds in the shaped one.
const RAW_CASES: usize = 100;
const SHAPED_ROUNDS: usize = 400;

/// As many bytes as the shaped form takes for most calls; a message takes more than its order, and so
/// does a pair; a sequence of calls over a session takes more than a message, and so does a list of
/// resting offers.
const SHAPED_BYTES: usize = 120;
const SHAPED_LONG_BYTES: usize = 180;
const SHAPED_SEQUENCE_BYTES: usize = 240;

/// In the raw form these many bytes choose the calls after the first over a session.
const NEXT_CALLS_BYTES: usize = 40;

/// The second byte of an input: 0 is the raw form. The third chooses how the call is made.
const SHAPED: u8 = 1;

// The first byte, for each entry.
const READ: u8 = 0;
const WRITE: u8 = 1;
const ORDER: u8 = 2;
const TALLIED: u8 = 5;
const QUOTE: u8 = 6;
const FIX: u8 = 8;
const FIX_TALLIED: u8 = 11;
const PAIR: u8 = 12;
const START: u8 = 14;
const ORDER_SESSION: u8 = 15;
const FIX_SESSION: u8 = 16;
const RELEASE: u8 = 17;
const CROSSING: u8 = 18;

/// Writes one file for each seed.
///
/// # Safety
/// `folder` ends with a zero byte.
#[no_mangle]
pub unsafe extern "C" fn second_write_seeds(folder: *const std::ffi::c_char) {
    let folder = CStr::from_ptr(folder).to_str().expect("the path is text");
    let folder = Path::new(folder);
    for (place, seed) in all().iter().enumerate() {
        fs::write(folder.join(format!("seed-{place:05}")), seed).expect("a seed is written");
    }
}

fn all() -> Vec<Vec<u8>> {
    let mut random = Random::new(seed());
    let mut seeds = of_cases();
    for _ in 0..RAW_CASES {
        seeds.append(&mut raw(&mut random));
    }
    for _ in 0..SHAPED_ROUNDS {
        seeds.append(&mut shaped(&mut random));
    }
    seeds
}

fn of_cases() -> Vec<Vec<u8>> {
    let mut seeds = Vec::new();
    let cases = cases::all();
    for expected in &cases.orders {
        seeds.push(order(&expected.case));
        seeds.push(tallied(&expected.case, [999_999, 0, 999_999, 0]));
        seeds.push(message(&expected.case));
        let contra = reversed(&expected.case);
        seeds.push(pair(&Pair::of(&expected.case, &contra, 1)));
    }
    seeds.extend(cases.pairs.iter().map(|expected| pair(&expected.case)));
    seeds.extend(cases.quotes.iter().map(|expected| quote(&expected.case)));
    let crossings = cases.crossings.iter();
    seeds.extend(crossings.map(|expected| crossing(&expected.case)));
    seeds
}

/// One of each entry, as it is.
fn raw(random: &mut Random) -> Vec<Vec<u8>> {
    let mut seeds = vec![order(&generate::arrival(random))];
    let kinds = [0; 3].map(|_| random.between(0, 400_000));
    let seen = kinds.iter().sum::<u64>() + random.between(0, 7) / 7;
    let tally = [seen, kinds[0], kinds[1], kinds[2]];
    seeds.push(tallied(&generate::arrival(random), tally));
    seeds.push(message(&generate::arrival(random)));
    seeds.push(tallied_message(&generate::arrival(random), tally));
    seeds.push(pair(&generate::pair(random)));
    seeds.push(quote(&generate::quote(random)));
    seeds.push(crossing(&generate::crossing(random)));
    let symbol = legs_of(&list_of(random, 1))[0].0;
    seeds.push(read(&symbol));
    seeds.push(write(&osi::read(&symbol).parts));
    let arrival = generate::arrival(random);
    for entry in [START, ORDER_SESSION, FIX_SESSION, RELEASE] {
        seeds.push(in_session(random, entry, &arrival));
    }
    seeds
}

/// Bytes for the shaped form, as many as an entry has use for.
fn shaped(random: &mut Random) -> Vec<Vec<u8>> {
    let short: &[u8] = &[READ, WRITE, ORDER, ORDER, ORDER, TALLIED, QUOTE, QUOTE];
    let long: &[u8] = &[FIX, FIX, FIX_TALLIED, PAIR, PAIR];
    let sequences: &[u8] = &[START, ORDER_SESSION, FIX_SESSION, RELEASE, CROSSING];
    let lengths = [
        (short, SHAPED_BYTES),
        (long, SHAPED_LONG_BYTES),
        (sequences, SHAPED_SEQUENCE_BYTES),
    ];
    let mut seeds = Vec::new();
    for (entries, length) in lengths {
        for &entry in entries {
            let bytes = random.bytes(length);
            seeds.push([&[entry, SHAPED], &bytes[..]].concat());
        }
    }
    seeds
}

fn numbers(seed: &mut Vec<u8>, numbers: &[u64]) {
    seed.extend(numbers.iter().flat_map(|number| number.to_le_bytes()));
}

fn slices(seed: &mut Vec<u8>, settings: &[u64], market: &[u64]) {
    for slice in [settings, market] {
        seed.push(slice.len() as u8);
        numbers(seed, slice);
    }
}

fn one_order(seed: &mut Vec<u8>, order: &Arrival) {
    seed.extend((order.symbols.len() as u16).to_le_bytes());
    seed.push(order.counts.len() as u8);
    seed.extend([&order.symbols[..], &order.counts].concat());
    seed.extend(order.price.to_le_bytes());
    numbers(seed, &[order.kind, order.stop, order.manual, order.opening]);
    seed.extend(order.shares.to_le_bytes());
}

fn order(arrival: &Arrival) -> Vec<u8> {
    let mut seed = vec![ORDER, 0, 0];
    one_order(&mut seed, arrival);
    slices(&mut seed, &arrival.settings, &arrival.market);
    seed
}

fn tallied(arrival: &Arrival, tally: [u64; 4]) -> Vec<u8> {
    let mut seed = order(arrival);
    seed[0] = TALLIED;
    numbers(&mut seed, &tally);
    seed
}

/// The body of the order's message, which has no shares; the harness puts the frame around it.
/// Here a bar is byte 1.
fn body(arrival: &Arrival) -> Vec<u8> {
    let kind = if arrival.kind == 0 { 2 } else { 1 };
    let sign = if arrival.price < 0 { "-" } else { "" };
    let mills = arrival.price.unsigned_abs();
    let (dollars, rest) = (mills / 1000, mills % 1000);
    let legs = arrival.legs();
    let terms = format!("40={kind}|44={sign}{dollars}.{rest:03}|555={}|", legs.len());
    let mut body = terms.into_bytes();
    for (symbol, count) in legs {
        let side = if count < 0 { 2 } else { 1 };
        body.extend(b"600=");
        body.extend(symbol);
        body.extend(format!("|623={}|624={side}|", count.unsigned_abs()).bytes());
    }
    let end = |byte| if byte == b'|' { 1 } else { byte };
    body.into_iter().map(end).collect()
}

fn message(arrival: &Arrival) -> Vec<u8> {
    let body = body(arrival);
    let [low, high] = (body.len() as u16).to_le_bytes();
    let mut seed = vec![FIX, 0, 0, 1, low, high];
    seed.extend(body);
    numbers(&mut seed, &[arrival.stop, arrival.manual, arrival.opening]);
    slices(&mut seed, &arrival.settings, &arrival.market);
    seed
}

fn tallied_message(arrival: &Arrival, tally: [u64; 4]) -> Vec<u8> {
    let mut seed = message(arrival);
    seed[0] = FIX_TALLIED;
    numbers(&mut seed, &tally);
    seed
}

/// Each with a byte before it that says how many bytes it has.
fn short_numbers(seed: &mut Vec<u8>, numbers: &[u64]) {
    for number in numbers {
        let length = 8 - number.leading_zeros() as usize / 8;
        seed.push(length as u8);
        seed.extend(&number.to_le_bytes()[..length]);
    }
}

fn in_session(random: &mut Random, entry: u8, arrival: &Arrival) -> Vec<u8> {
    let mut seed = match entry {
        FIX_SESSION => message(arrival),
        _ => order(arrival),
    };
    seed[0] = entry;
    numbers(&mut seed, &[sessions::login(random)]);
    let (limits, mut session) = (sessions::limits(random), sessions::session(random));
    if random.index(4) == 0 {
        sessions::damage_session(random, &mut session);
    }
    seed.push(limits.len() as u8);
    short_numbers(&mut seed, &limits);
    seed.extend((session.len() as u16).to_le_bytes());
    short_numbers(&mut seed, &session);
    seed.extend(random.bytes(NEXT_CALLS_BYTES));
    seed
}

fn pair(pair: &Pair) -> Vec<u8> {
    let mut seed = vec![PAIR, 0, 0];
    one_order(&mut seed, &pair.agency);
    one_order(&mut seed, &pair.contra);
    numbers(&mut seed, &[pair.continue_unpaired]);
    slices(&mut seed, &pair.agency.settings, &pair.agency.market);
    seed
}

fn quote(quote: &Quote) -> Vec<u8> {
    let mut seed = vec![QUOTE, 0, 0, quote.symbol.len() as u8];
    seed.extend(&quote.symbol);
    numbers(&mut seed, &[quote.bid, quote.offer, quote.resting]);
    slices(&mut seed, &quote.settings, &quote.market);
    seed
}

fn crossing(crossing: &Crossing) -> Vec<u8> {
    let mut seed = quote(&crossing.quote);
    seed[0] = CROSSING;
    numbers(&mut seed, &[crossing.sell, crossing.size, crossing.away]);
    for list in [&crossing.prices, &crossing.sizes] {
        seed.push(list.len() as u8);
        short_numbers(&mut seed, list);
    }
    seed.push(crossing.fills_length as u8);
    seed
}

fn read(symbol: &[u8]) -> Vec<u8> {
    let mut seed = vec![READ, 0, 0, symbol.len() as u8];
    seed.extend(symbol);
    seed
}

fn write(parts: &Parts) -> Vec<u8> {
    let mut seed = vec![WRITE, 0, 0, 21];
    let date = [parts.root, parts.year, parts.month, parts.day];
    numbers(&mut seed, &date);
    numbers(&mut seed, &[parts.option_type, parts.strike]);
    seed
}
