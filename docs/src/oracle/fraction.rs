//! Exact fractions of whole numbers: the only arithmetic the luma formulas use.
//!
//! A fraction is always in lowest terms with a bottom above zero, so equal
//! fractions have equal fields and an exact half is one whose bottom is 2.
//! A step that left i128 would stop the program; it can never give a wrong
//! number quietly.

use std::ops::{Add, Div, Mul, Sub};

#[derive(Clone, Copy, Debug, PartialEq, Eq)]
pub struct Fraction {
    top: i128,
    bottom: i128,
}

impl Fraction {
    pub fn new(top: i128, bottom: i128) -> Fraction {
        assert!(bottom != 0, "a fraction over zero");
        let sign = if bottom < 0 { -1 } else { 1 };
        let common = greatest_common_divisor(top.unsigned_abs(), bottom.unsigned_abs()) as i128;
        Fraction {
            top: sign * top / common,
            bottom: sign * bottom / common,
        }
    }

    pub fn whole(value: i128) -> Fraction {
        Fraction::new(value, 1)
    }

    pub fn top(self) -> i128 {
        self.top
    }

    pub fn bottom(self) -> i128 {
        self.bottom
    }

    /// Nearest whole number; a half goes away from zero. The size is rounded
    /// without its sign and gets the sign back, so both sides of zero behave
    /// alike.
    pub fn round(self) -> i128 {
        let size = self.top.abs();
        let rounded = (2 * size + self.bottom) / (2 * self.bottom);
        if self.top < 0 {
            -rounded
        } else {
            rounded
        }
    }

    pub fn is_half(self) -> bool {
        self.bottom == 2
    }
}

fn greatest_common_divisor(mut a: u128, mut b: u128) -> u128 {
    while b != 0 {
        let rest = a % b;
        a = b;
        b = rest;
    }
    a
}

fn product(a: i128, b: i128) -> i128 {
    a.checked_mul(b).expect("a fraction left i128")
}

impl Add for Fraction {
    type Output = Fraction;
    fn add(self, other: Fraction) -> Fraction {
        let left = product(self.top, other.bottom);
        let right = product(other.top, self.bottom);
        let top = left.checked_add(right).expect("a fraction left i128");
        Fraction::new(top, product(self.bottom, other.bottom))
    }
}

impl Sub for Fraction {
    type Output = Fraction;
    fn sub(self, other: Fraction) -> Fraction {
        self + Fraction::whole(-1) * other
    }
}

impl Mul for Fraction {
    type Output = Fraction;
    fn mul(self, other: Fraction) -> Fraction {
        Fraction::new(
            product(self.top, other.top),
            product(self.bottom, other.bottom),
        )
    }
}

impl Div for Fraction {
    type Output = Fraction;
    fn div(self, other: Fraction) -> Fraction {
        Fraction::new(
            product(self.top, other.bottom),
            product(self.bottom, other.top),
        )
    }
}
