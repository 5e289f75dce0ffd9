//! Series to make orders of, as they are written in tests and made up at random.

use crate::arrival::RawLeg;

/// A series by its parts, which may lie outside the layout.
#[derive(Clone, Copy, Debug, PartialEq, Eq)]
pub struct Series {
    pub root: &'static str,
    /// As the digits yymmdd.
    pub expiry: u64,
    pub option_type: char,
    /// In mills.
    pub strike: u64,
}

pub fn call(expiry: u64, strike: u64) -> Series {
    Series {
        root: "XYZ",
        expiry,
        option_type: 'C',
        strike,
    }
}

pub fn put(expiry: u64, strike: u64) -> Series {
    Series {
        option_type: 'P',
        ..call(expiry, strike)
    }
}

impl Series {
    /// Its 21 bytes; parts too large for their fields are cut off in front.
    pub fn symbol(&self) -> [u8; 21] {
        let mut symbol = [b' '; 21];
        let root = self.root.as_bytes();
        symbol[..root.len()].copy_from_slice(root);
        digits(self.expiry, &mut symbol[6..12]);
        symbol[12] = self.option_type as u8;
        digits(self.strike, &mut symbol[13..21]);
        symbol
    }

    pub fn leg(&self, count: i64) -> RawLeg {
        (self.symbol(), count)
    }
}

fn digits(number: u64, field: &mut [u8]) {
    let mut rest = number;
    for digit in field.iter_mut().rev() {
        *digit = b'0' + (rest % 10) as u8;
        rest /= 10;
    }
}
