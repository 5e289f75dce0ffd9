//! The second implementation behind a C face, for the fuzzer's harness. No rule is written here:
//! numbers and bytes go to `compare`, and its answers come back.
//!
//! What every function asks: a pointer to a slice is valid for the length beside it unless that is 0.
//! The answers, the parts and the tally of `compare` are laid out as the C structs are.
#![allow(clippy::missing_safety_doc)] // it is said above, once

mod seeds;

use compare::{
    arrival::{Answer, Arrival},
    case::Case,
    crossing::{self, Crossing},
    fix,
    message::Message,
    order, osi,
    pair::{self, Pair, PairAnswer},
    quote::{Quote, QuoteAnswer},
    quote_check,
    session::{self, After, Release, Sent, Start},
    tally::{self, Tallied, Tally},
    Parts,
};
use std::slice;

/// struct opc_order.
#[repr(C)]
pub struct Order {
    symbols: *const u8,
    symbols_len: usize,
    counts: *const u8,
    counts_len: usize,
    price: i64,
    kind: u64,
    stop: u64,
    manual: u64,
    opening: u64,
    shares: i64,
}

/// struct opc_fix.
#[repr(C)]
pub struct Fix {
    message: *const u8,
    message_len: usize,
    stop: u64,
    manual: u64,
    opening: u64,
}

/// struct opc_pair.
#[repr(C)]
pub struct PairOf {
    agency: Order,
    contra: Order,
    continue_unpaired: u64,
}

/// struct opc_quote.
#[repr(C)]
pub struct QuoteOf {
    symbol: *const u8,
    symbol_len: usize,
    bid: u64,
    offer: u64,
    resting: u64,
}

/// struct opc_crossing_quote.
#[repr(C)]
pub struct CrossingOf {
    quote: QuoteOf,
    sell: u64,
    size: u64,
    prices: *const u64,
    prices_len: usize,
    sizes: *const u64,
    sizes_len: usize,
    away: u64,
}

/// struct second_crossing_answer.
#[repr(C)]
pub struct WithoutFills {
    number: u64,
    cancel: u64,
    executed: u64,
    booked: u64,
    cancelled: u64,
}

/// struct second_terms.
#[repr(C)]
pub struct Terms {
    settings: *const u64,
    settings_len: usize,
    market: *const u64,
    market_len: usize,
}

/// struct second_session.
#[repr(C)]
pub struct Session {
    numbers: *mut u64,
    length: usize,
}

unsafe fn lent<T: Clone>(pointer: *const T, length: usize) -> Vec<T> {
    match length {
        0 => Vec::new(),
        _ => slice::from_raw_parts(pointer, length).to_vec(),
    }
}

unsafe fn arrival(order: &Order, terms: &Terms) -> Arrival {
    Arrival {
        symbols: lent(order.symbols, order.symbols_len),
        counts: lent(order.counts, order.counts_len),
        price: order.price,
        kind: order.kind,
        stop: order.stop,
        manual: order.manual,
        opening: order.opening,
        shares: order.shares,
        settings: lent(terms.settings, terms.settings_len),
        market: lent(terms.market, terms.market_len),
    }
}

unsafe fn message(fix: &Fix, terms: &Terms) -> Message {
    Message {
        bytes: lent(fix.message, fix.message_len),
        stop: fix.stop,
        manual: fix.manual,
        opening: fix.opening,
        settings: lent(terms.settings, terms.settings_len),
        market: lent(terms.market, terms.market_len),
    }
}

unsafe fn pair(pair: &PairOf, terms: &Terms) -> Pair {
    let [agency, contra] = [&pair.agency, &pair.contra].map(|order| arrival(order, terms));
    Pair::of(&agency, &contra, pair.continue_unpaired)
}

unsafe fn quote(quote: &QuoteOf, terms: &Terms) -> Quote {
    Quote {
        symbol: lent(quote.symbol, quote.symbol_len),
        bid: quote.bid,
        offer: quote.offer,
        resting: quote.resting,
        settings: lent(terms.settings, terms.settings_len),
        market: lent(terms.market, terms.market_len),
    }
}

unsafe fn crossing(crossing: &CrossingOf, terms: &Terms, fills_length: usize) -> Crossing {
    Crossing {
        quote: quote(&crossing.quote, terms),
        sell: crossing.sell,
        size: crossing.size,
        prices: lent(crossing.prices, crossing.prices_len),
        sizes: lent(crossing.sizes, crossing.sizes_len),
        away: crossing.away,
        fills_length,
    }
}

unsafe fn start(limits: *const u64, length: usize, session: &Session) -> Start {
    Start {
        limits: lent(limits, length),
        session: lent(session.numbers, session.length),
    }
}

unsafe fn sent<A>(login: u64, arrival: A, session: &Session) -> Sent<A> {
    Sent {
        login,
        arrival,
        session: lent(session.numbers, session.length),
    }
}

unsafe fn release(login: u64, session: &Session) -> Release {
    Release {
        login,
        session: lent(session.numbers, session.length),
    }
}

/// Leaves numbers where there are as many, which are valid for writes.
unsafe fn write_numbers(pointer: *mut u64, length: usize, numbers: &[u64]) {
    assert_eq!(numbers.len(), length);
    if length > 0 {
        slice::from_raw_parts_mut(pointer, length).copy_from_slice(numbers);
    }
}

/// Leaves the session as it is after a call.
unsafe fn leave<G>(session: &Session, after: After<G>) -> G {
    write_numbers(session.numbers, session.length, &after.session);
    after.given
}

#[no_mangle]
pub unsafe extern "C" fn second_read_symbol(
    symbol: *const u8,
    length: usize,
    parts: &mut Parts,
) -> u64 {
    let read = osi::read(&lent(symbol, length));
    *parts = read.parts;
    read.number
}

/// `out` is valid for writes.
#[no_mangle]
pub unsafe extern "C" fn second_write_symbol(
    parts: &Parts,
    out: *mut u8,
    length: usize,
    number: &mut u64,
) -> u64 {
    let written = match length {
        0 => osi::write(parts, &mut []),
        _ => osi::write(parts, slice::from_raw_parts_mut(out, length)),
    };
    *number = written.number;
    written.length
}

#[no_mangle]
pub unsafe extern "C" fn second_check_order(order: &Order, terms: &Terms) -> Answer {
    order::check(&arrival(order, terms))
}

#[no_mangle]
pub unsafe extern "C" fn second_check_order_tallied(
    order: &Order,
    terms: &Terms,
    tally: &mut Tally,
) -> Answer {
    let tallied = tally::check(&Tallied {
        arrival: arrival(order, terms),
        tally: *tally,
    });
    *tally = tallied.tally;
    tallied.answer
}

#[no_mangle]
pub unsafe extern "C" fn second_check_fix(fix: &Fix, terms: &Terms) -> Answer {
    fix::check(&message(fix, terms))
}

#[no_mangle]
pub unsafe extern "C" fn second_check_fix_tallied(
    fix: &Fix,
    terms: &Terms,
    tally: &mut Tally,
) -> Answer {
    let tallied = tally::check(&Tallied {
        arrival: message(fix, terms),
        tally: *tally,
    });
    *tally = tallied.tally;
    tallied.answer
}

#[no_mangle]
pub unsafe extern "C" fn second_check_pair(pair_of: &PairOf, terms: &Terms) -> PairAnswer {
    pair::check(&pair(pair_of, terms))
}

#[no_mangle]
pub unsafe extern "C" fn second_check_quote(quote_of: &QuoteOf, terms: &Terms) -> QuoteAnswer {
    quote_check::check(&quote(quote_of, terms))
}

#[no_mangle]
pub unsafe extern "C" fn second_check_crossing_quote(
    crossing_of: &CrossingOf,
    terms: &Terms,
    fills: *mut u64,
    fills_length: usize,
) -> WithoutFills {
    let answer = crossing::check(&crossing(crossing_of, terms, fills_length));
    write_numbers(fills, fills_length, &answer.fills);
    WithoutFills {
        number: answer.number,
        cancel: answer.cancel,
        executed: answer.executed,
        booked: answer.booked,
        cancelled: answer.cancelled,
    }
}

#[no_mangle]
pub unsafe extern "C" fn second_start_session(
    limits: *const u64,
    length: usize,
    session: &Session,
) -> u64 {
    leave(session, session::start(&start(limits, length, session)))
}

#[no_mangle]
pub unsafe extern "C" fn second_check_order_session(
    login: u64,
    order: &Order,
    terms: &Terms,
    session: &Session,
) -> Answer {
    let sent = sent(login, arrival(order, terms), session);
    leave(session, session::check(&sent))
}

#[no_mangle]
pub unsafe extern "C" fn second_check_fix_session(
    login: u64,
    fix: &Fix,
    terms: &Terms,
    session: &Session,
) -> Answer {
    let sent = sent(login, message(fix, terms), session);
    leave(session, session::check(&sent))
}

#[no_mangle]
pub unsafe extern "C" fn second_release_login(login: u64, session: &Session) -> u64 {
    leave(session, session::release(&release(login, session)))
}

fn print<C: Case>(case: &C) {
    eprintln!("{}\n  COMPARE_CASE='{case}'", case.described());
}

/// Prints an order, tallied where a tally is given, and the line that replays it.
#[no_mangle]
pub unsafe extern "C" fn second_print_order(order: &Order, terms: &Terms, tally: Option<&Tally>) {
    let arrival = arrival(order, terms);
    match tally {
        Some(&tally) => print(&Tallied { arrival, tally }),
        None => print(&arrival),
    }
}

/// The same of a message.
#[no_mangle]
pub unsafe extern "C" fn second_print_fix(fix: &Fix, terms: &Terms, tally: Option<&Tally>) {
    let arrival = message(fix, terms);
    match tally {
        Some(&tally) => print(&Tallied { arrival, tally }),
        None => print(&arrival),
    }
}

#[no_mangle]
pub unsafe extern "C" fn second_print_pair(pair_of: &PairOf, terms: &Terms) {
    print(&pair(pair_of, terms));
}

#[no_mangle]
pub unsafe extern "C" fn second_print_quote(quote_of: &QuoteOf, terms: &Terms) {
    print(&quote(quote_of, terms));
}

#[no_mangle]
pub unsafe extern "C" fn second_print_crossing_quote(
    crossing_of: &CrossingOf,
    terms: &Terms,
    fills_length: usize,
) {
    print(&crossing(crossing_of, terms, fills_length));
}

#[no_mangle]
pub unsafe extern "C" fn second_print_start(limits: *const u64, length: usize, session: &Session) {
    print(&start(limits, length, session));
}

#[no_mangle]
pub unsafe extern "C" fn second_print_order_session(
    login: u64,
    order: &Order,
    terms: &Terms,
    session: &Session,
) {
    print(&sent(login, arrival(order, terms), session));
}

#[no_mangle]
pub unsafe extern "C" fn second_print_fix_session(
    login: u64,
    fix: &Fix,
    terms: &Terms,
    session: &Session,
) {
    print(&sent(login, message(fix, terms), session));
}

#[no_mangle]
pub unsafe extern "C" fn second_print_release(login: u64, session: &Session) {
    print(&release(login, session));
}
