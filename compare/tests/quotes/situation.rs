//! In which situation a side of a quote is when 26 looks at it, so that a random run can be asked
//! whether it met them all. What the situation leads to is not decided here.

use compare::{
    quote::Quote,
    slices::{market::*, setting::*},
};

#[derive(Clone, Copy, Debug, PartialEq, Eq, PartialOrd, Ord)]
pub enum Side {
    Bid,
    Offer,
}

/// The national best prices, as one side of a quote sees them.
#[derive(Clone, Copy, Debug, PartialEq, Eq, PartialOrd, Ord)]
pub enum Nbbo {
    Both,
    Locked,
    Crossed,
    Unavailable,
    /// Only the price that this side is compared with is there.
    OnlyCompared,
    /// Only the other one is there.
    OnlyOther,
}

/// The own price on the side that is compared with.
#[derive(Clone, Copy, Debug, PartialEq, Eq, PartialOrd, Ord)]
pub enum Own {
    Best,
    Other,
    Missing,
}

/// Where a bid is, as seen from the comparison price and from the set ticks above it; for an offer
/// 'above' is below.
#[derive(Clone, Copy, Debug, PartialEq, Eq, PartialOrd, Ord)]
pub enum Place {
    Below,
    OneBelow,
    At,
    OneAbove,
    Within,
    OneBeforeSetTicks,
    AtSetTicks,
    OneBeyondSetTicks,
    Beyond,
    NothingToCompare,
}

pub type Situation = (Side, Nbbo, Own, Place);

/// What a side is compared with, 0 if with nothing, and where it is.
pub struct Met {
    pub situation: Situation,
    pub compared: u64,
}

impl Side {
    pub const BOTH: [Side; 2] = [Side::Bid, Side::Offer];
}

pub fn of(quote: &Quote, side: Side) -> Met {
    let market = &quote.market;
    let (price, best, other, own) = match side {
        Side::Bid => (quote.bid, market[NBO], market[NBB], market[OWN_OFFER]),
        Side::Offer => (quote.offer, market[NBB], market[NBO], market[OWN_BID]),
    };
    let nbbo = match (best, other) {
        (0, 0) => Nbbo::Unavailable,
        (0, _) => Nbbo::OnlyOther,
        (_, 0) => Nbbo::OnlyCompared,
        _ if best == other => Nbbo::Locked,
        _ if market[NBB] > market[NBO] => Nbbo::Crossed,
        _ => Nbbo::Both,
    };
    let compared = match nbbo {
        Nbbo::Locked | Nbbo::Crossed | Nbbo::Unavailable => own,
        _ => best,
    };
    let own = match own {
        0 => Own::Missing,
        _ if own == best => Own::Best,
        _ => Own::Other,
    };
    let place = match compared {
        0 => Place::NothingToCompare,
        _ => place(quote, side, price, compared),
    };
    Met {
        situation: (side, nbbo, own, place),
        compared,
    }
}

fn place(quote: &Quote, side: Side, price: u64, compared: u64) -> Place {
    let tick = match compared {
        0..=2_999 => quote.settings[TICK_BELOW_3000],
        _ => quote.settings[TICK_FROM_3000],
    };
    let ticks = (quote.settings[SET_TICKS] * tick) as i64;
    let above = match side {
        Side::Bid => price as i64 - compared as i64,
        Side::Offer => compared as i64 - price as i64,
    };
    match (above, above - ticks) {
        (-1, _) => Place::OneBelow,
        (0, _) => Place::At,
        // With no set ticks, one above is one beyond them.
        (1, _) if ticks != 0 => Place::OneAbove,
        (..=-2, _) => Place::Below,
        (_, -1) => Place::OneBeforeSetTicks,
        (_, 0) => Place::AtSetTicks,
        (_, 1) => Place::OneBeyondSetTicks,
        (_, ..=-2) => Place::Within,
        _ => Place::Beyond,
    }
}

const STATES: [(Nbbo, Own); 15] = [
    (Nbbo::Both, Own::Best),
    (Nbbo::Both, Own::Other),
    (Nbbo::Both, Own::Missing),
    (Nbbo::OnlyCompared, Own::Best),
    (Nbbo::OnlyCompared, Own::Other),
    (Nbbo::OnlyCompared, Own::Missing),
    (Nbbo::Locked, Own::Best),
    (Nbbo::Locked, Own::Other),
    (Nbbo::Crossed, Own::Best),
    (Nbbo::Crossed, Own::Other),
    (Nbbo::Unavailable, Own::Other),
    (Nbbo::Locked, Own::Missing),
    (Nbbo::Crossed, Own::Missing),
    (Nbbo::Unavailable, Own::Missing),
    (Nbbo::OnlyOther, Own::Other), // and missing, below
];

const PLACES: [Place; 9] = [
    Place::Below,
    Place::OneBelow,
    Place::At,
    Place::OneAbove,
    Place::Within,
    Place::OneBeforeSetTicks,
    Place::AtSetTicks,
    Place::OneBeyondSetTicks,
    Place::Beyond,
];

/// Every situation that there is.
pub fn all() -> Vec<Situation> {
    let mut all = Vec::new();
    for side in Side::BOTH {
        for (nbbo, own) in STATES {
            let unreliable = matches!(nbbo, Nbbo::Locked | Nbbo::Crossed | Nbbo::Unavailable);
            if nbbo == Nbbo::OnlyOther || unreliable && own == Own::Missing {
                all.push((side, nbbo, own, Place::NothingToCompare));
                continue;
            }
            all.extend(PLACES.map(|place| (side, nbbo, own, place)));
        }
        let nothing = Place::NothingToCompare;
        all.push((side, Nbbo::OnlyOther, Own::Missing, nothing));
    }
    all
}
