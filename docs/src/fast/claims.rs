//! Claimed frames, made of the right one.

use crate::pictures::{Planes, Shape};

#[derive(Clone, Copy, PartialEq, Eq)]
pub enum Claim {
    Right,
    AllWrong,
    LastWrong,
}

pub const CLAIMS: [(Claim, &str); 3] =
    [(Claim::Right, "all pixels agree"), (Claim::AllWrong, "every pixel wrong"), (Claim::LastWrong, "the last pixel wrong")];

impl Claim {
    /// A wrong pixel has one sample that is off by one.
    pub fn of(self, mut right: Planes, shape: &Shape) -> Planes {
        match self {
            Claim::Right => {}
            Claim::AllWrong => (0..shape.output_length()).for_each(|index| right[index % 3][index] ^= 1),
            Claim::LastWrong => right[2][(shape.height - 1) * shape.output_stride + shape.width - 1] ^= 1,
        }
        right
    }
}
