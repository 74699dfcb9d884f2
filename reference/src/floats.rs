//! 32-bit floats, from their bits: R22.1 and R22.2. No floating point is used.

use crate::factoring::{ceiling_quotient, floor_quotient};

/// R4.17: a number is within ±8, so 16 times it within ±128.
const RANGE: i128 = 16 * 8;

/// Digits of a significand behind the leading one.
const DIGITS: u32 = 23;

/// With so many binary places a significand is less than 1, and with more of them
/// the same whole numbers stand next to it.
const MOST_PLACES: u32 = DIGITS + 1;

/// A finite float, multiplied by 16: so many times 2 to an exponent.
#[derive(Clone, Copy, Debug, PartialEq, Eq)]
#[allow(missing_docs)]
pub struct Exact {
    pub significand: i128,
    pub exponent: i32,
}

/// The whole numbers next below and above a number: both are the number itself
/// where it is whole.
#[derive(Clone, Copy, Debug, PartialEq, Eq)]
#[allow(missing_docs)]
pub struct Bracket {
    pub low: i128,
    pub high: i128,
}

/// 16 times a float, as its bits give it: 1 bit of sign, 8 of exponent, 23 of
/// digits. `None` where it is infinite or not a number.
pub fn sixteenfold(bits: u32) -> Option<Exact> {
    let negative = bits >> 31 == 1;
    let field = (bits >> DIGITS & 0xFF) as i32;
    let digits = i128::from(bits & 0x7F_FFFF);
    let (magnitude, exponent) = match field {
        0xFF => return None,
        // Subnormal numbers and zeros: no leading one, and the least exponent
        0 => (digits, -149),
        _ => (digits + (1 << DIGITS), field - 150),
    };
    Some(Exact {
        // −0 becomes 0 here.
        significand: if negative { -magnitude } else { magnitude },
        exponent: exponent + 4,
    })
}

impl Exact {
    /// R22.2: the whole numbers next to it, or `None` where it is beyond ±128.
    pub fn bracket(self) -> Option<Bracket> {
        // From 2^0 on only normal numbers come, which are 2^23 or more.
        let places = u32::try_from(-self.exponent).ok().filter(|p| *p > 0)?;
        let unit = 1 << places.min(MOST_PLACES);
        let inside = self.significand.abs() <= RANGE * unit;
        inside.then(|| Bracket {
            low: floor_quotient(self.significand, unit),
            high: ceiling_quotient(self.significand, unit),
        })
    }
}

/// R22.2: the bracket of 16 times a float, or `None` where 17 refuses it.
pub fn bracket(bits: u32) -> Option<Bracket> {
    sixteenfold(bits)?.bracket()
}
