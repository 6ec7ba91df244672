//! The settings that are timed and counted.

use crate::setting::{Setting, PUBLISHED};

pub const CODE_1: Setting = Setting {
    edition: PUBLISHED,
    primaries: 1,
    transfer: 1,
    matrix: 1,
    rgb_depth: 8,
    y_depth: 8,
    c_depth: 8,
    rgb_full: true,
    ycc_full: true,
};
pub const LOSSLESS: Setting = Setting { matrix: 8, c_depth: 9, ..CODE_1 };
