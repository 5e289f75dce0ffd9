//! The symbol entries of the proved library (left in a message) against the second implementation
//! (right): every answer and every byte of the buffers, and that reading and writing undo each
//! other.

use compare::{
    numbers::{self, Of, ACCEPTED},
    osi,
    random::{self, Random, SEED_VARIABLE},
    unit, Parts, SYMBOL_LENGTH,
};
use std::collections::BTreeMap;

const LEAST_COMPARISONS: u64 = 1_000_000;
const LEAST_OF_EACH_NUMBER: u64 = 1_000;

const LARGEST_BUFFER: usize = 64;
/// Bytes on both sides of a lent buffer, which show a stray write.
const GUARD: usize = 16;

const SYMBOLS: [&str; 8] = [
    "SPX   141122P00019500", // published
    "LAMR  150117C00052500", // published
    "ABCDEF250331C00100000", // a root of six characters
    "A1B2C3250630P00100000", // digits in the root
    "Z9    200531C01234567",
    "A     000101C00000001", // the smallest strike
    "Z     991231P99999999", // the largest strike
    "BRKB7 240229C00000010", // a leap day
];

/// The parts of the first symbol.
const PARTS: Parts = Parts {
    root: 0x5350_5820_2020,
    year: 2014,
    month: 11,
    day: 22,
    option_type: b'P' as u64,
    strike: 19_500,
};

#[test]
fn both_give_the_same_answers() {
    let seed = random::seed();
    let mut run = Run {
        seed,
        random: Random::new(seed),
        seen: BTreeMap::new(),
    };
    damaged_bytes(&mut run);
    damaged_roots_and_types(&mut run);
    every_expiry(&mut run);
    strikes(&mut run);
    buffers(&mut run);
    random_bytes(&mut run);
    near_symbols(&mut run);
    near_parts(&mut run);
    run.report();
}

/// One run: its random numbers, and how often each number was given.
struct Run {
    seed: u64,
    random: Random,
    seen: BTreeMap<u64, u64>,
}

impl Run {
    fn read(&mut self, symbol: &[u8]) {
        let answer = unit::read(symbol);
        let again = format_args!("{SEED_VARIABLE}={}", self.seed);
        let text = symbol.escape_ascii();
        assert_eq!(answer, osi::read(symbol), "read b\"{text}\", {again}");
        if answer.number == ACCEPTED {
            let mut written = [0; SYMBOL_LENGTH];
            unit::write(&answer.parts, &mut written);
            assert_eq!(written, symbol, "read and written b\"{text}\", {again}");
        }
        *self.seen.entry(answer.number).or_default() += 1;
    }

    /// Writes into a buffer of some length, with random bytes in it and around it.
    fn write(&mut self, parts: &Parts, length: usize) {
        let lent = GUARD..GUARD + length;
        let before = self.random.bytes(GUARD + length + GUARD);
        let (mut bytes, mut expected_bytes) = (before.clone(), before.clone());
        let answer = unit::write(parts, &mut bytes[lent.clone()]);
        let expected = osi::write(parts, &mut expected_bytes[lent.clone()]);
        let again = format_args!("{SEED_VARIABLE}={}", self.seed);
        let case = format_args!("{parts:?} into {:?}, {again}", &before[lent.clone()]);
        assert_eq!(answer, expected, "written {case}");
        assert_eq!(
            bytes, expected_bytes,
            "bytes around and in the buffer after {case}"
        );
        if answer.number == ACCEPTED {
            let read = unit::read(&bytes[lent][..SYMBOL_LENGTH]);
            assert_eq!(read.parts, *parts, "written and read {case}");
        }
        *self.seen.entry(answer.number).or_default() += 1;
    }

    fn report(&self) {
        let total: u64 = self.seen.values().sum();
        println!(
            "symbols: {total} comparisons, {SEED_VARIABLE}={}",
            self.seed
        );
        for (number, times) in &self.seen {
            println!("symbols: number {number} given {times} times");
        }
        assert!(total >= LEAST_COMPARISONS);
        for number in numbers::of(Of::Symbol) {
            let times = self.seen.get(&number).copied().unwrap_or(0);
            assert!(times >= LEAST_OF_EACH_NUMBER, "number {number}: {times}");
        }
    }
}

/// Valid symbols, and each with every byte in every place.
fn damaged_bytes(run: &mut Run) {
    for text in SYMBOLS {
        assert_eq!(unit::read(text.as_bytes()).number, ACCEPTED, "{text}");
        for place in 0..SYMBOL_LENGTH {
            for byte in 0..=u8::MAX {
                let mut symbol = text.as_bytes().to_vec();
                symbol[place] = byte;
                run.read(&symbol);
            }
        }
    }
}

/// The same for the writer: every byte in every place of a root, and every byte as a type.
fn damaged_roots_and_types(run: &mut Run) {
    for text in SYMBOLS {
        let parts = unit::read(text.as_bytes()).parts;
        for byte in 0..=u64::from(u8::MAX) {
            for shift in [0, 8, 16, 24, 32, 40] {
                let root = parts.root & !(0xff << shift) | byte << shift;
                run.write(&Parts { root, ..parts }, SYMBOL_LENGTH);
            }
            let option_type = byte;
            run.write(
                &Parts {
                    option_type,
                    ..parts
                },
                SYMBOL_LENGTH,
            );
        }
    }
}

/// Every six digits as an expiry to read, and to write every date within and just outside the
/// calendar.
fn every_expiry(run: &mut Run) {
    for expiry in 0..1_000_000 {
        run.read(format!("SPX   {expiry:06}P00019500").as_bytes());
    }
    for year in 1999..=2100 {
        for month in 0..=13 {
            for day in 0..=32 {
                let parts = Parts {
                    year,
                    month,
                    day,
                    ..PARTS
                };
                run.write(&parts, SYMBOL_LENGTH);
            }
        }
    }
}

/// Every power of ten, one below and one above. A strike too wide for its field makes a longer
/// symbol to read.
fn strikes(run: &mut Run) {
    for exponent in 0..=19 {
        let power = 10_u64.pow(exponent);
        for strike in [power - 1, power, power + 1] {
            run.read(format!("SPX   141122P{strike:08}").as_bytes());
            run.write(&Parts { strike, ..PARTS }, SYMBOL_LENGTH);
        }
    }
}

/// Buffers of every length, for parts inside and outside the layout.
fn buffers(run: &mut Run) {
    for length in 0..=LARGEST_BUFFER {
        run.write(&PARTS, length);
        run.write(&Parts { strike: 0, ..PARTS }, length);
        run.write(&Parts { root: 0, ..PARTS }, length);
    }
}

fn random_bytes(run: &mut Run) {
    for length in 0..=LARGEST_BUFFER {
        for _ in 0..1_000 {
            let symbol = run.random.bytes(length);
            run.read(&symbol);
        }
    }
    for _ in 0..20_000 {
        let symbol = run.random.bytes(SYMBOL_LENGTH);
        run.read(&symbol);
    }
}

/// Printable text: valid symbols with up to three small mistakes.
fn near_symbols(run: &mut Run) {
    for _ in 0..400_000 {
        let mut symbol = random_symbol(&mut run.random);
        for _ in 0..run.random.index(4) {
            make_a_mistake(&mut run.random, &mut symbol);
        }
        run.read(&symbol);
    }
}

/// Parts in and out of their limits, with buffers of every length.
fn near_parts(run: &mut Run) {
    for _ in 0..400_000 {
        let parts = random_parts(&mut run.random);
        let length = run.random.index(LARGEST_BUFFER + 1);
        run.write(&parts, length);
    }
}

fn random_symbol(random: &mut Random) -> Vec<u8> {
    let root = random_root(random);
    let (year, month) = (random.between(0, 99), random.between(1, 12));
    let (day, strike) = (random.between(1, 31), random_strike(random));
    let option_type = random.pick(&['C', 'P']);
    format!("{root}{year:02}{month:02}{day:02}{option_type}{strike:08}").into_bytes()
}

fn random_root(random: &mut Random) -> String {
    const CHARACTERS: &[u8] = b"ABCDEFGHIJKLMNOPQRSTUVWXYZ0123456789";
    let mut root = String::new();
    root.push((*random.pick(&CHARACTERS[..26])).into());
    for _ in 0..random.index(6) {
        root.push((*random.pick(CHARACTERS)).into());
    }
    format!("{root:<6}")
}

/// A strike of one to eight digits, each width as often as any other.
fn random_strike(random: &mut Random) -> u64 {
    let digits = random.between(1, 8);
    random.between(1, 10_u64.pow(digits as u32) - 1)
}

fn make_a_mistake(random: &mut Random, symbol: &mut Vec<u8>) {
    const LIKELY: &[u8] = b"  AZCPXacpz0123456789+-./:@[`{";
    let place = random.index(symbol.len());
    match random.index(16) {
        0 => {
            symbol.remove(place);
        }
        1 => symbol.insert(place, *random.pick(LIKELY)),
        2..=5 => {
            let other = random.index(symbol.len());
            symbol.swap(place, other);
        }
        _ => symbol[place] = *random.pick(LIKELY),
    }
}

fn random_parts(random: &mut Random) -> Parts {
    let root = random_root(random)
        .bytes()
        .fold(0, |number, byte| number << 8 | u64::from(byte));
    let (year, month) = (random.between(2000, 2099), random.between(1, 12));
    let (day, strike) = (random.between(1, 31), random_strike(random));
    let option_type = u64::from(*random.pick(b"CP"));
    Parts {
        root: near(random, root, &[0, 0x2020_2020_2020, (1 << 48) - 1, 1 << 48]),
        year: near(random, year, &[0, 99, 1999, 2000, 2099, 2100]),
        month: near(random, month, &[0, 1, 12, 13]),
        day: near(random, day, &[0, 28, 29, 30, 31, 32]),
        option_type: near(random, option_type, b"BDOQcp".map(u64::from).as_slice()),
        strike: near(random, strike, &[0, 1, 99_999_999, 100_000_000]),
    }
}

/// Mostly the value itself; otherwise one near a limit, one equal in its low bits, which a number
/// cut short would take for it, or any other.
fn near(random: &mut Random, value: u64, limits: &[u64]) -> u64 {
    match random.index(32) {
        0 => *random.pick(limits),
        1 => value.wrapping_add(1 << random.between(0, 63)),
        2 => random.number() >> random.between(0, 63),
        3 => u64::MAX,
        _ => value,
    }
}
