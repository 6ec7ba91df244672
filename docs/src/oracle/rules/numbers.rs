//! What the formulas are made of: the ends of a depth, Clip, halving, and the
//! one Round.

use crate::fraction::Fraction;

/// Three samples as plain numbers, which a formula may take below zero.
pub type Numbers = [i128; 3];

/// M, the largest sample of a depth.
pub fn max_value(depth: u8) -> i128 {
    (1 << depth) - 1
}

/// H, the chroma sample that stands for zero.
pub fn half_scale(c_depth: u8) -> i128 {
    1 << (c_depth - 1)
}

pub fn within_depth(value: i128, depth: u8) -> bool {
    0 <= value && value <= max_value(depth)
}

pub fn clip(value: i128, depth: u8) -> i128 {
    value.clamp(0, max_value(depth))
}

/// Half, rounded down; Rust's shift of a negative number does just that.
pub fn halved_down(value: i128) -> i128 {
    value >> 1
}

/// A sample before its one Round: Round gets `argument`, `add` is added to
/// what it gives, and the sum is clipped.
#[derive(Clone, Copy, Debug)]
pub struct Unrounded {
    pub argument: Fraction,
    pub add: i128,
}

impl Unrounded {
    pub fn sum(self) -> i128 {
        self.argument.round() + self.add
    }
}
