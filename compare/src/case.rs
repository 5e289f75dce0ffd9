//! What a run needs of a case: one call of an entry, which both implementations can be asked, and
//! which can be written as one line of text.

use crate::{
    arrival::{Answer, Arrival},
    crossing::{self, Crossing, CrossingAnswer},
    fix,
    message::Message,
    numbers::{kind, Kind},
    order,
    pair::{self, Pair, PairAnswer},
    quote::{Quote, QuoteAnswer},
    quote_check,
    run::Seen,
    session::{self, After, Release, Sent, Start},
    slices::{self, login, market, setting},
    tally::{self, Tallied, TalliedAnswer},
    unit,
};
use std::fmt::{Debug, Display};

pub trait Case: Clone + Display + PartialEq {
    type Answer: Clone + Debug + PartialEq;

    fn library(&self) -> Self::Answer;
    fn second(&self) -> Self::Answer;

    /// The case for a reader, every line with two spaces in front.
    fn described(&self) -> String;

    /// Counts what was lent and answered.
    fn count(&self, answer: &Self::Answer, seen: &mut Seen);
}

/// What the tallied checks and those of sessions take: an order on slices, or a message with one.
pub trait Arriving: Case<Answer = Answer> {
    fn library_tallied(tallied: &Tallied<Self>) -> TalliedAnswer;
    fn library_in_session(sent: &Sent<Self>) -> After<Answer>;
}

fn terms(settings: &[u64], market: &[u64]) -> String {
    let [settings, market] = [(setting::NAMES, settings), (market::NAMES, market)]
        .map(|(names, numbers)| slices::described(names, numbers));
    format!("  settings: {settings}\n  market: {market}")
}

impl Case for Arrival {
    type Answer = Answer;

    fn library(&self) -> Answer {
        unit::check_order(self)
    }

    fn second(&self) -> Answer {
        order::check(self)
    }

    fn described(&self) -> String {
        format!(
            "{}\n{}",
            order_described(self),
            terms(&self.settings, &self.market),
        )
    }

    fn count(&self, answer: &Answer, seen: &mut Seen) {
        seen.count_lengths(&self.settings, &self.market);
        count_answer(answer, seen);
    }
}

fn order_described(arrival: &Arrival) -> String {
    format!(
        "  legs: {}
  price {}, kind {}, stop {}, manual {}, opening {}, shares {}",
        arrival.legs_as_text(),
        arrival.price,
        arrival.kind,
        arrival.stop,
        arrival.manual,
        arrival.opening,
        arrival.shares,
    )
}

/// Classes, shapes and pairings are those of valid orders.
fn count_answer(answer: &Answer, seen: &mut Seen) {
    *seen.numbers.entry(answer.number).or_default() += 1;
    if kind(answer.number) != Kind::Refused {
        *seen.classes.entry(answer.class).or_default() += 1;
        *seen.shapes.entry(answer.shape).or_default() += 1;
        *seen.pairings.entry(answer.pairings).or_default() += 1;
    }
}

impl Arriving for Arrival {
    fn library_tallied(tallied: &Tallied<Self>) -> TalliedAnswer {
        unit::check_order_tallied(tallied)
    }

    fn library_in_session(sent: &Sent<Self>) -> After<Answer> {
        unit::check_order_session(sent)
    }
}

impl Case for Message {
    type Answer = Answer;

    fn library(&self) -> Answer {
        unit::check_fix(self)
    }

    fn second(&self) -> Answer {
        fix::check(self)
    }

    fn described(&self) -> String {
        format!(
            "  message \"{}\"
  stop {}, manual {}, opening {}
{}",
            self.as_text(),
            self.stop,
            self.manual,
            self.opening,
            terms(&self.settings, &self.market),
        )
    }

    fn count(&self, answer: &Answer, seen: &mut Seen) {
        seen.count_lengths(&self.settings, &self.market);
        count_answer(answer, seen);
    }
}

impl Arriving for Message {
    fn library_tallied(tallied: &Tallied<Self>) -> TalliedAnswer {
        unit::check_fix_tallied(tallied)
    }

    fn library_in_session(sent: &Sent<Self>) -> After<Answer> {
        unit::check_fix_session(sent)
    }
}

impl<A: Arriving> Case for Tallied<A> {
    type Answer = TalliedAnswer;

    fn library(&self) -> TalliedAnswer {
        A::library_tallied(self)
    }

    fn second(&self) -> TalliedAnswer {
        tally::check(self)
    }

    fn described(&self) -> String {
        format!("  {:?}\n{}", self.tally, self.arrival.described())
    }

    fn count(&self, answer: &TalliedAnswer, seen: &mut Seen) {
        self.arrival.count(&answer.answer, seen);
    }
}

/// A line for each login.
fn session_described(session: &[u64]) -> String {
    let rows = session.chunks(login::LENGTH).enumerate();
    let lines = rows.map(|(place, row)| {
        let row = slices::described(login::NAMES, row);
        format!("  login {place}: {row}")
    });
    lines.collect::<Vec<_>>().join("\n")
}

impl<A: Arriving> Case for Sent<A> {
    type Answer = After<Answer>;

    fn library(&self) -> After<Answer> {
        A::library_in_session(self)
    }

    fn second(&self) -> After<Answer> {
        session::check(self)
    }

    fn described(&self) -> String {
        format!(
            "{}\n  sent by login {}\n{}",
            session_described(&self.session),
            self.login,
            self.arrival.described(),
        )
    }

    fn count(&self, answer: &After<Answer>, seen: &mut Seen) {
        self.arrival.count(&answer.given, seen);
    }
}

impl Case for Release {
    type Answer = After<u64>;

    fn library(&self) -> After<u64> {
        unit::release_login(self)
    }

    fn second(&self) -> After<u64> {
        session::release(self)
    }

    fn described(&self) -> String {
        let session = session_described(&self.session);
        format!("{session}\n  release of login {}", self.login)
    }

    fn count(&self, answer: &After<u64>, seen: &mut Seen) {
        *seen.numbers.entry(answer.given).or_default() += 1;
    }
}

impl Case for Start {
    type Answer = After<u64>;

    fn library(&self) -> After<u64> {
        unit::start_session(self)
    }

    fn second(&self) -> After<u64> {
        session::start(self)
    }

    fn described(&self) -> String {
        let session = session_described(&self.session);
        format!("{session}\n  start with limits {:?}", self.limits)
    }

    fn count(&self, answer: &After<u64>, seen: &mut Seen) {
        *seen.numbers.entry(answer.given).or_default() += 1;
    }
}

impl Case for Pair {
    type Answer = PairAnswer;

    fn library(&self) -> PairAnswer {
        unit::check_pair(self)
    }

    fn second(&self) -> PairAnswer {
        pair::check(self)
    }

    fn described(&self) -> String {
        let [agency, contra] = self.orders().map(|order| order_described(&order));
        format!(
            "  pair, continue unpaired {}
  agency order:
{agency}
  contra order:
{contra}
{}",
            self.continue_unpaired,
            terms(&self.agency.settings, &self.agency.market),
        )
    }

    fn count(&self, answer: &PairAnswer, seen: &mut Seen) {
        seen.count_lengths(&self.agency.settings, &self.agency.market);
        *seen.numbers.entry(answer.agency_number).or_default() += 1;
        *seen.contra_numbers.entry(answer.contra_number).or_default() += 1;
        let passing = answer.agency_passes + answer.contra_passes;
        *seen.passing.entry(passing).or_default() += 1;
    }
}

impl Case for Quote {
    type Answer = QuoteAnswer;

    fn library(&self) -> QuoteAnswer {
        unit::check_quote(self)
    }

    fn second(&self) -> QuoteAnswer {
        quote_check::check(self)
    }

    fn described(&self) -> String {
        format!(
            "  quote of \"{}\"
  bid {}, offer {}, resting {}
{}",
            self.symbol.escape_ascii(),
            self.bid,
            self.offer,
            self.resting,
            terms(&self.settings, &self.market),
        )
    }

    fn count(&self, answer: &QuoteAnswer, seen: &mut Seen) {
        seen.count_lengths(&self.settings, &self.market);
        *seen.numbers.entry(answer.number).or_default() += 1;
        *seen.cancels.entry(answer.cancel).or_default() += 1;
    }
}

impl Case for Crossing {
    type Answer = CrossingAnswer;

    fn library(&self) -> CrossingAnswer {
        unit::check_crossing_quote(self)
    }

    fn second(&self) -> CrossingAnswer {
        crossing::check(self)
    }

    fn described(&self) -> String {
        format!(
            "  sell {}, size {}, away {}, numbers for fills {}
  resting at {:?}
  of sizes {:?}
{}",
            self.sell,
            self.size,
            self.away,
            self.fills_length,
            self.prices,
            self.sizes,
            self.quote.described(),
        )
    }

    fn count(&self, answer: &CrossingAnswer, seen: &mut Seen) {
        let CrossingAnswer { number, cancel, .. } = *answer;
        self.quote.count(&QuoteAnswer { number, cancel }, seen);
    }
}
