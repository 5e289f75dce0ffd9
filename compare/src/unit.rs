//! The proved library, through its C face.

use crate::{
    arrival::{Answer, Arrival},
    crossing::{Crossing, CrossingAnswer},
    message::Message,
    pair::{Pair, PairAnswer},
    quote::{Quote, QuoteAnswer},
    session::{After, Release, Sent, Start},
    tally::{Tallied, TalliedAnswer},
    Parts, Read, Written,
};

extern "C" {
    fn opc_read_symbol(
        symbol: *const u8,
        symbol_len: usize,
        root: &mut u64,
        year: &mut u64,
        month: &mut u64,
        day: &mut u64,
        option_type: &mut u64,
        strike: &mut u64,
    ) -> u64;

    fn opc_write_symbol(
        root: u64,
        year: u64,
        month: u64,
        day: u64,
        option_type: u64,
        strike: u64,
        out: *mut u8,
        out_len: usize,
        number: &mut u64,
    ) -> u64;

    fn opc_start_session(
        limits: *const u64,
        limits_len: usize,
        session: *mut u64,
        session_len: usize,
    ) -> u64;

    fn opc_release_login(login: u64, session: *mut u64, session_len: usize) -> u64;
}

/// Declares an entry that takes settings and a market between other arguments, and calls it.
macro_rules! call {
    (
        $entry:ident, $case:expr, [$($before:ident: $type:ty = $value:expr),* $(,)?],
        [$($after:ident: $after_type:ty = $after_value:expr),* $(,)?],
        [$($lent:ident: $number:expr),* $(,)?]
    ) => {{
        extern "C" {
            fn $entry(
                $($before: $type,)*
                settings: *const u64,
                settings_len: usize,
                market: *const u64,
                market_len: usize,
                $($after: $after_type,)*
                $($lent: &mut u64),*
            ) -> u64;
        }
        let (settings, market) = (&$case.settings, &$case.market);
        $entry(
            $($value,)*
            settings.as_ptr(),
            settings.len(),
            market.as_ptr(),
            market.len(),
            $($after_value,)*
            $(&mut $number),*
        )
    }};
}

/// Calls an entry that answers as the order check does, and may be lent more than the parts of the
/// answer. Its own arguments are those before the flags and after them.
macro_rules! call_for_answer {
    (
        $entry:ident, $case:expr, [$($before:tt)*], [$($after:tt)*], $session:tt, [$($more:tt)*]
    ) => {{
        let mut answer = Answer {
            number: UNSET,
            class: UNSET,
            shape: UNSET,
            pairings: UNSET,
        };
        answer.number = call!(
            $entry, $case,
            [
                $($before)*
                stop: u64 = $case.stop,
                manual: u64 = $case.manual,
                opening: u64 = $case.opening,
                $($after)*
            ],
            $session,
            [
                class: answer.class,
                shape: answer.shape,
                pairings: answer.pairings,
                $($more)*
            ]
        );
        answer
    }};
}

/// The arguments of a session's entry, the login and the session, are none for the others.
macro_rules! call_order {
    ($entry:ident, $arrival:expr, [$($login:tt)*], $session:tt, $more:tt) => {
        call_for_answer!(
            $entry, $arrival,
            [
                $($login)*
                symbols: *const u8 = $arrival.symbols.as_ptr(),
                symbols_len: usize = $arrival.symbols.len(),
                counts: *const u8 = $arrival.counts.as_ptr(),
                counts_len: usize = $arrival.counts.len(),
                price: i64 = $arrival.price,
                kind: u64 = $arrival.kind,
            ],
            [shares: i64 = $arrival.shares],
            $session, $more
        )
    };
}

macro_rules! call_fix {
    ($entry:ident, $message:expr, [$($login:tt)*], $session:tt, $more:tt) => {
        call_for_answer!(
            $entry, $message,
            [
                $($login)*
                message: *const u8 = $message.bytes.as_ptr(),
                message_len: usize = $message.bytes.len(),
            ],
            [], $session, $more
        )
    };
}

/// Calls an entry by one of these two, with a tally.
macro_rules! call_tallied {
    ($call:ident, $entry:ident, $tallied:expr) => {{
        let (arrival, mut tally) = (&$tallied.arrival, $tallied.tally);
        let answer = $call!(
            $entry, arrival, [], [],
            [
                seen: tally.seen,
                refused: tally.refused,
                accepted: tally.accepted,
                rejected: tally.rejected,
            ]
        );
        TalliedAnswer { answer, tally }
    }};
}

/// Calls an entry by one of them, with a login and a session.
macro_rules! call_in_session {
    ($call:ident, $entry:ident, $sent:expr) => {{
        let (arrival, mut session) = (&$sent.arrival, $sent.session.clone());
        let given = $call!(
            $entry, arrival,
            [login: u64 = $sent.login,],
            [session: *mut u64 = session.as_mut_ptr(), session_len: usize = session.len()],
            []
        );
        After { given, session }
    }};
}

/// What a lent number holds before a call: no answer, so that one which is not set is seen.
const UNSET: u64 = 0xdead_beef_dead_beef;

pub fn read(symbol: &[u8]) -> Read {
    let mut parts = Parts {
        root: UNSET,
        year: UNSET,
        month: UNSET,
        day: UNSET,
        option_type: UNSET,
        strike: UNSET,
    };
    // SAFETY: the pointer is valid for the length, and the lent numbers are distinct fields.
    let number = unsafe {
        opc_read_symbol(
            symbol.as_ptr(),
            symbol.len(),
            &mut parts.root,
            &mut parts.year,
            &mut parts.month,
            &mut parts.day,
            &mut parts.option_type,
            &mut parts.strike,
        )
    };
    Read { number, parts }
}

pub fn write(parts: &Parts, out: &mut [u8]) -> Written {
    let mut number = UNSET;
    // SAFETY: the pointer is valid for the length, and the lent number is apart from the bytes.
    let length = unsafe {
        opc_write_symbol(
            parts.root,
            parts.year,
            parts.month,
            parts.day,
            parts.option_type,
            parts.strike,
            out.as_mut_ptr(),
            out.len(),
            &mut number,
        )
    };
    Written { number, length }
}

pub fn check_order(arrival: &Arrival) -> Answer {
    // SAFETY: each pointer is valid for its length, and the lent numbers are apart from each other
    // and from the slices.
    unsafe { call_order!(opc_check_order, arrival, [], [], []) }
}

pub fn check_order_tallied(tallied: &Tallied) -> TalliedAnswer {
    // SAFETY: as for the order check, and the tally's numbers are distinct fields.
    unsafe { call_tallied!(call_order, opc_check_order_tallied, tallied) }
}

pub fn check_fix(message: &Message) -> Answer {
    // SAFETY: as for the order check.
    unsafe { call_fix!(opc_check_fix, message, [], [], []) }
}

pub fn check_fix_tallied(tallied: &Tallied<Message>) -> TalliedAnswer {
    // SAFETY: as for the tallied order check.
    unsafe { call_tallied!(call_fix, opc_check_fix_tallied, tallied) }
}

pub fn start_session(start: &Start) -> After<u64> {
    let Start { limits, session } = start;
    let mut session = session.clone();
    // SAFETY: each pointer is valid for its length, and the session is apart from the limits.
    let given = unsafe {
        opc_start_session(
            limits.as_ptr(),
            limits.len(),
            session.as_mut_ptr(),
            session.len(),
        )
    };
    After { given, session }
}

pub fn check_order_session(sent: &Sent) -> After<Answer> {
    // SAFETY: as for the order check, and the session is apart from all else.
    unsafe { call_in_session!(call_order, opc_check_order_session, sent) }
}

pub fn check_fix_session(sent: &Sent<Message>) -> After<Answer> {
    // SAFETY: as for an order in a session.
    unsafe { call_in_session!(call_fix, opc_check_fix_session, sent) }
}

pub fn release_login(release: &Release) -> After<u64> {
    let mut session = release.session.clone();
    // SAFETY: the pointer is valid for the length.
    let given = unsafe { opc_release_login(release.login, session.as_mut_ptr(), session.len()) };
    After { given, session }
}

pub fn check_pair(pair: &Pair) -> PairAnswer {
    let (agency, contra) = (&pair.agency, &pair.contra);
    let mut answer = PairAnswer {
        agency_number: UNSET,
        contra_number: UNSET,
        agency_passes: UNSET,
        contra_passes: UNSET,
    };
    // SAFETY: as for the order check.
    answer.agency_number = unsafe {
        call!(
            opc_check_pair, agency,
            [
                agency_symbols: *const u8 = agency.symbols.as_ptr(),
                agency_symbols_len: usize = agency.symbols.len(),
                agency_counts: *const u8 = agency.counts.as_ptr(),
                agency_counts_len: usize = agency.counts.len(),
                agency_price: i64 = agency.price,
                agency_kind: u64 = agency.kind,
                agency_stop: u64 = agency.stop,
                agency_manual: u64 = agency.manual,
                agency_opening: u64 = agency.opening,
                agency_shares: i64 = agency.shares,
                contra_symbols: *const u8 = contra.symbols.as_ptr(),
                contra_symbols_len: usize = contra.symbols.len(),
                contra_counts: *const u8 = contra.counts.as_ptr(),
                contra_counts_len: usize = contra.counts.len(),
                contra_price: i64 = contra.price,
                contra_kind: u64 = contra.kind,
                contra_stop: u64 = contra.stop,
                contra_manual: u64 = contra.manual,
                contra_opening: u64 = contra.opening,
                contra_shares: i64 = contra.shares,
                continue_unpaired: u64 = pair.continue_unpaired,
            ],
            [],
            [
                contra_number: answer.contra_number,
                agency_passes: answer.agency_passes,
                contra_passes: answer.contra_passes,
            ]
        )
    };
    answer
}

pub fn check_quote(quote: &Quote) -> QuoteAnswer {
    let mut cancel = UNSET;
    // SAFETY: each pointer is valid for its length, and the lent number is apart from the slices.
    let number = unsafe {
        call!(
            opc_check_quote, quote,
            [
                symbol: *const u8 = quote.symbol.as_ptr(),
                symbol_len: usize = quote.symbol.len(),
                bid: u64 = quote.bid,
                offer: u64 = quote.offer,
                resting: u64 = quote.resting,
            ],
            [],
            [cancel: cancel]
        )
    };
    QuoteAnswer { number, cancel }
}

/// So many numbers before the fills and behind them, which must stay as they were.
const GUARDS: usize = 8;

pub fn check_crossing_quote(crossing: &Crossing) -> CrossingAnswer {
    let end = GUARDS + crossing.fills_length;
    let mut lent = vec![UNSET; end + GUARDS];
    let mut answer = check_crossing_quote_into(crossing, &mut lent[GUARDS..end]);
    answer.fills = lent[GUARDS..end].to_vec();
    let guards = [&lent[..GUARDS], &lent[end..]].concat();
    assert_eq!(
        guards,
        [UNSET; 2 * GUARDS],
        "beside the fills of {crossing}"
    );
    answer
}

/// The answer but for the fills, which are left where they were lent.
fn check_crossing_quote_into(crossing: &Crossing, fills: &mut [u64]) -> CrossingAnswer {
    let quote = &crossing.quote;
    let mut answer = CrossingAnswer {
        number: UNSET,
        cancel: UNSET,
        executed: UNSET,
        booked: UNSET,
        cancelled: UNSET,
        fills: Vec::new(),
    };
    // SAFETY: each pointer is valid for its length, that of the fills for writes too; they and the
    // lent numbers are apart from each other and from the slices.
    answer.number = unsafe {
        call!(
            opc_check_crossing_quote, quote,
            [
                symbol: *const u8 = quote.symbol.as_ptr(),
                symbol_len: usize = quote.symbol.len(),
                bid: u64 = quote.bid,
                offer: u64 = quote.offer,
                resting: u64 = quote.resting,
                sell: u64 = crossing.sell,
                size: u64 = crossing.size,
                prices: *const u64 = crossing.prices.as_ptr(),
                prices_len: usize = crossing.prices.len(),
                sizes: *const u64 = crossing.sizes.as_ptr(),
                sizes_len: usize = crossing.sizes.len(),
                away: u64 = crossing.away,
            ],
            [fills: *mut u64 = fills.as_mut_ptr(), fills_len: usize = fills.len()],
            [
                cancel: answer.cancel,
                executed: answer.executed,
                booked: answer.booked,
                cancelled: answer.cancelled,
            ]
        )
    };
    answer
}
