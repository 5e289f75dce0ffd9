//! The checks 20 to 25 on a valid order. Each is one predicate; which number is given is not their
//! concern.
//!
//! Money is signed throughout, paid above zero and received below, as an order's price is. Check 25
//! then needs no rule for sells: seen from the other side of zero a sell is a buy, an offer is a
//! bid with its sign turned, and what is missing stays zero.

use crate::{
    class::{CREDIT, DEBIT},
    legs::{Leg, OptionType},
    shape::Shape,
    slices::{market::*, setting::*},
};

/// A valid order, with what was found out about it.
pub struct Order {
    /// With unit counts.
    pub units: Vec<Leg>,
    pub price: i128,
    pub is_market: bool,
    pub stop: bool,
    pub manual: bool,
    pub opening: bool,
    /// Positive bought, negative sold, 0 none.
    pub shares: i128,
    pub class: u64,
    pub shape: Shape,
}

/// Every check with whether it is on and rejects the order.
pub fn all(order: &Order, settings: &[u64], market: &[u64]) -> [(u64, bool); 6] {
    let on = |switch: usize| settings[switch] != 0;
    let distant = on(CHECK_25) && tick_distance(order, settings, market);
    [
        (20, on(CHECK_20) && put_strike(order)),
        (21, on(CHECK_21) && call_underlying(order, settings, market)),
        (22, on(CHECK_22) && buy_buy_sell_sell(order, settings)),
        (23, on(CHECK_23) && debit_credit(order)),
        (24, on(CHECK_24) && maximum_value(order, settings)),
        (25, distant),
    ]
}

/// The leg of an order that has one, and no shares.
fn simple(order: &Order) -> Option<&Leg> {
    match &order.units[..] {
        [leg] if order.shares == 0 => Some(leg),
        _ => None,
    }
}

/// The leg of a simple buy that 20 and 21 look at.
fn simple_buy(order: &Order, option_type: OptionType) -> Option<&Leg> {
    let skipped = order.is_market && order.opening;
    let leg = simple(order).filter(|_| !skipped)?;
    (leg.option_type == option_type && leg.count > 0).then_some(leg)
}

fn put_strike(order: &Order) -> bool {
    simple_buy(order, OptionType::Put).is_some_and(|leg| order.price >= leg.strike)
}

fn call_underlying(order: &Order, settings: &[u64], market: &[u64]) -> bool {
    let applies = market[UNDERLYING] != 0 && settings[ADJUSTED] == 0 && market[EXTENDED_HOURS] == 0;
    applies
        && simple_buy(order, OptionType::Call).is_some()
        && order.price >= i128::from(market[UNDERLYING])
}

fn buy_buy_sell_sell(order: &Order, settings: &[u64]) -> bool {
    if simple(order).is_some() || order.is_market {
        return false;
    }
    let bought: i128 = order.units.iter().map(|leg| leg.count.max(0)).sum();
    let sold: i128 = order.units.iter().map(|leg| (-leg.count).max(0)).sum();
    let increment = i128::from(settings[NET_INCREMENT]);
    match (bought, sold) {
        (_, 0) if order.shares >= 0 => order.price < bought * increment,
        (0, _) if order.shares <= 0 => -order.price < sold * increment,
        _ => false,
    }
}

fn debit_credit(order: &Order) -> bool {
    if simple(order).is_some() || order.shares != 0 {
        return false;
    }
    let paid_for_credit = order.class == CREDIT && order.price > 0;
    let received_for_debit = order.class == DEBIT && order.price < 0;
    paid_for_credit || received_for_debit && !order.is_market
}

fn maximum_value(order: &Order, settings: &[u64]) -> bool {
    if order.shares != 0 {
        return false;
    }
    let most = |maximum| maximum + allowance(settings, maximum);
    let maximum = order.shape.maximum();
    maximum.is_some_and(|maximum| order.price.abs() > most(maximum))
}

/// Raised to the minimum and lowered to the maximum, which is not below it: the middle one of three.
pub fn allowance(settings: &[u64], maximum: i128) -> i128 {
    let part = (maximum * i128::from(settings[PERCENTAGE])).div_euclid(10_000);
    let mut three = [
        part,
        settings[PRESET_MINIMUM].into(),
        settings[PRESET_MAXIMUM].into(),
    ];
    three.sort_unstable();
    three[1]
}

fn tick_distance(order: &Order, settings: &[u64], market: &[u64]) -> bool {
    let Some(leg) = simple(order) else {
        return false;
    };
    if order.is_market || order.stop || order.manual {
        return false;
    }
    let reference = reference(&Seen::from(market, leg.count.signum()), market);
    reference != 0 && order.price > reference + distance(settings, reference)
}

/// The market's prices as a buyer sees them, or a seller with every sign turned.
pub struct Seen {
    pub near: i128,
    pub far: i128,
    pub own_far: i128,
    pub close: i128,
}

impl Seen {
    pub fn from(market: &[u64], side: i128) -> Self {
        let (near, far, own_far) = if side > 0 {
            (market[NBB], market[NBO], market[OWN_OFFER])
        } else {
            (market[NBO], market[NBB], market[OWN_BID])
        };
        let turned = |price: u64| i128::from(price) * side;
        Seen {
            near: turned(near),
            far: turned(far),
            own_far: turned(own_far),
            close: turned(market[PREVIOUS_CLOSE]),
        }
    }

    /// Locked, crossed or unavailable.
    pub fn nbbo_is_unreliable(&self) -> bool {
        match (self.near != 0, self.far != 0) {
            (true, true) => self.near >= self.far,
            (near, far) => !near && !far,
        }
    }
}

/// The price that 25 measures from, 0 if it is missing.
fn reference(seen: &Seen, market: &[u64]) -> i128 {
    let elsewhere = market[OPEN_ELSEWHERE] != 0;
    let far_alone_missing = seen.far == 0 && seen.near != 0;
    match market[PHASE] {
        HALT => seen.far,
        OPEN if seen.nbbo_is_unreliable() => seen.own_far,
        OPEN => seen.far,
        _ if !elsewhere || seen.nbbo_is_unreliable() => seen.close,
        _ if far_alone_missing && seen.close >= seen.near => seen.close,
        _ => seen.far,
    }
}

/// D, by the band and the tick of the reference.
pub fn distance(settings: &[u64], reference: i128) -> i128 {
    let ticks =
        settings[ATD_BELOW_1000..=ATD_FROM_10000][reached(&[1_000, 3_000, 10_000], reference)];
    i128::from(ticks) * tick(settings, reference)
}

/// The tick at a price.
pub fn tick(settings: &[u64], price: i128) -> i128 {
    settings[TICK_BELOW_3000..=TICK_FROM_3000][reached(&[3_000], price)].into()
}

/// How many of some limits a price has reached.
fn reached(limits: &[i128], price: i128) -> usize {
    limits.iter().filter(|&&limit| price.abs() >= limit).count()
}
