//! Shapes, found by trying every way to give the roles of a shape to the legs.

use crate::legs::{Leg, OptionType};

/// What an order is, with the strikes that its roles have.
#[derive(Clone, Copy, Debug, PartialEq, Eq)]
pub enum Shape {
    Other,
    Vertical {
        low: i128,
        high: i128,
    },
    Butterfly {
        option_type: OptionType,
        low: i128,
        middle: i128,
        high: i128,
        middle_sold: bool,
    },
    Box {
        low: i128,
        high: i128,
    },
}

impl Shape {
    /// The shape of legs with unit counts.
    pub fn of(units: &[Leg]) -> Self {
        let found = match units.len() {
            2 => assignments(units).find_map(vertical),
            3 => assignments(units).find_map(butterfly),
            4 => assignments(units).find_map(box_spread),
            _ => None,
        };
        found.unwrap_or(Shape::Other)
    }

    pub fn number(&self) -> u64 {
        match *self {
            Shape::Other => 0,
            Shape::Vertical { .. } => 1,
            Shape::Butterfly {
                low, middle, high, ..
            } if middle - low == high - middle => 2,
            Shape::Butterfly { .. } => 3,
            Shape::Box { .. } => 4,
        }
    }

    /// The maximum value (M of check 24), where the shape has one.
    pub fn maximum(&self) -> Option<i128> {
        match *self {
            Shape::Vertical { low, high } | Shape::Box { low, high } => Some(high - low),
            Shape::Butterfly { low, middle, .. } => (self.number() == 2).then_some(middle - low),
            Shape::Other => None,
        }
    }
}

/// Every way to give `N` roles to `N` legs: all numbers of `N` digits to base `N`, without those in
/// which a digit, the place of a leg, comes twice.
fn assignments<const N: usize>(legs: &[Leg]) -> impl Iterator<Item = [Leg; N]> + '_ {
    (0..N.pow(N as u32)).filter_map(|code| {
        let mut places = [0; N];
        let mut rest = code;
        for place in &mut places {
            *place = rest % N;
            rest /= N;
        }
        let once = (0..N).all(|place| places.contains(&place));
        once.then(|| places.map(|place| legs[place]))
    })
}

fn same_expiry(legs: &[Leg]) -> bool {
    legs.iter().all(|leg| leg.expiry == legs[0].expiry)
}

fn same_type(legs: &[Leg]) -> bool {
    legs.iter()
        .all(|leg| leg.option_type == legs[0].option_type)
}

fn vertical(roles: [Leg; 2]) -> Option<Shape> {
    let [low, high] = roles;
    let counts = [[1, -1], [-1, 1]].contains(&roles.map(|leg| leg.count));
    let vertical = same_type(&roles) && same_expiry(&roles) && counts && low.strike < high.strike;
    vertical.then_some(Shape::Vertical {
        low: low.strike,
        high: high.strike,
    })
}

fn butterfly(roles: [Leg; 3]) -> Option<Shape> {
    let [low, middle, high] = roles;
    let counts = [[1, -2, 1], [-1, 2, -1]].contains(&roles.map(|leg| leg.count));
    let rising = low.strike < middle.strike && middle.strike < high.strike;
    let butterfly = same_type(&roles) && same_expiry(&roles) && counts && rising;
    butterfly.then_some(Shape::Butterfly {
        option_type: middle.option_type,
        low: low.strike,
        middle: middle.strike,
        high: high.strike,
        middle_sold: middle.count < 0,
    })
}

fn box_spread(roles: [Leg; 4]) -> Option<Shape> {
    let [low_call, low_put, high_call, high_put] = roles;
    let types = same_type(&[low_call, high_call])
        && same_type(&[low_put, high_put])
        && low_call.option_type == OptionType::Call
        && low_put.option_type == OptionType::Put;
    let strikes = low_call.strike == low_put.strike
        && high_call.strike == high_put.strike
        && low_call.strike < high_call.strike;
    let counts = [[1, -1, -1, 1], [-1, 1, 1, -1]].contains(&roles.map(|leg| leg.count));
    (types && strikes && counts && same_expiry(&roles)).then_some(Shape::Box {
        low: low_call.strike,
        high: high_call.strike,
    })
}
