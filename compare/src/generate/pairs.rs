//! Pairs: two orders under one choice of settings and market, the second mostly made of the first,
//! as where orders are crossed.

use super::{any_draft, damage, market, order, settings, shuffle, values::flag};
use crate::{arrival::Arrival, pair::Pair, random::Random};

/// A whole pair, mostly without damage.
pub fn pair(random: &mut Random) -> Pair {
    let draft = any_draft(random);
    let settings = settings(random);
    let market = market(random, &draft);
    let first = order(random, &draft, &settings, &market);
    let second = match random.index(4) {
        0 => {
            let other_legs = any_draft(random);
            order(random, &other_legs, &settings, &market)
        }
        _ => of_the_same_legs(random, &first),
    };
    let mut orders = [first, second];
    shuffle(random, &mut orders);
    // Settings and market are the agency order's: what is done to the contra order's is lost.
    while random.index(3) == 0 {
        let side = random.index(2);
        damage(random, &mut orders[side]);
    }
    let [agency, contra] = orders;
    Pair::of(&agency, &contra, flag(random, 2))
}

/// The order from the other side or from the same, perhaps in another sequence of its legs, at
/// another price or with other shares.
fn of_the_same_legs(random: &mut Random, order: &Arrival) -> Arrival {
    let mut other = match random.index(4) {
        0 => order.clone(),
        _ => reversed(order),
    };
    if random.index(2) == 0 {
        let mut legs = other.legs();
        shuffle(random, &mut legs);
        other = other.with_legs(&legs);
    }
    if random.index(2) == 0 {
        let price = other.price;
        other.price = *random.pick(&[price - 1, price + 1, price / 2, -price]);
    }
    if random.index(8) == 0 {
        other.shares = *random.pick(&[0, 100, -100, -other.shares]);
    }
    other
}

/// What was bought is sold and what was sold is bought, shares too, at the opposite price.
pub fn reversed(order: &Arrival) -> Arrival {
    let mut legs = order.legs();
    legs.iter_mut()
        .for_each(|(_, count)| *count = count.wrapping_neg());
    Arrival {
        price: order.price.wrapping_neg(),
        shares: order.shares.wrapping_neg(),
        ..order.with_legs(&legs)
    }
}
