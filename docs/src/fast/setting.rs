//! Settings, and refusals 12 and 1 to 7.

/// The numbers of the editions of H.273: the text of 2021, the draft of the third edition, and the third edition as published.
const OF_2021: u8 = 1;
const DRAFT: u8 = 2;
pub const PUBLISHED: u8 = 3;

#[derive(Clone, Copy, Debug, PartialEq, Eq)]
pub struct Setting {
    pub edition: u8,
    pub primaries: u8,
    pub transfer: u8,
    pub matrix: u8,
    pub rgb_depth: u8,
    pub y_depth: u8,
    pub c_depth: u8,
    pub rgb_full: bool,
    pub ycc_full: bool,
}

#[derive(Clone, Copy, Debug, PartialEq, Eq)]
pub enum Way {
    Forward,
    Reverse,
}

#[derive(Clone, Copy, Debug, PartialEq, Eq)]
pub enum Refusal {
    Number(u8),
    /// Number 10: plane, row and column, and the sample.
    Sample(usize, usize, usize, u16),
}

/// The formulas that a matrix code stands for; KR and KB in ten-thousandths.
#[derive(Clone, Copy, Debug, PartialEq, Eq)]
pub enum Formulas {
    Swap,
    Lossy,
    Lossless,
    Luma { kr: i64, kb: i64 },
}

impl Setting {
    pub fn rgb_depths(&self) -> [u8; 3] {
        [self.rgb_depth; 3]
    }

    pub fn ycc_depths(&self) -> [u8; 3] {
        [self.y_depth, self.c_depth, self.c_depth]
    }

    pub fn formulas(&self) -> Result<Formulas, Refusal> {
        if !(OF_2021..=PUBLISHED).contains(&self.edition) {
            return Err(Refusal::Number(12));
        }
        let (formulas, agrees) = self.by_matrix().map_err(Refusal::Number)?;
        if !matches!(self.primaries, 1 | 2 | 4..=12 | 22) {
            return Err(Refusal::Number(4));
        }
        if !matches!(self.transfer, 1 | 2 | 4..=18) {
            return Err(Refusal::Number(5));
        }
        let deepest = if matches!(formulas, Formulas::Luma { .. }) { 12 } else { 16 };
        if [self.rgb_depth, self.y_depth, self.c_depth].iter().any(|d| !(8..=deepest).contains(d)) {
            return Err(Refusal::Number(6));
        }
        if agrees {
            Ok(formulas)
        } else {
            Err(Refusal::Number(7))
        }
    }

    /// What the matrix code stands for in the edition, and whether depths and flags agree with it; or a refusal.
    fn by_matrix(&self) -> Result<(Formulas, bool), u8> {
        let [rgb, y, c] = [self.rgb_depth, self.y_depth, self.c_depth].map(u32::from);
        let equal_flags = self.rgb_full == self.ycc_full;
        let luma = |kr, kb| Ok((Formulas::Luma { kr, kb }, c == y));
        let deeper = |bits| Ok((Formulas::Lossless, y == rgb + bits && c == y && equal_flags));
        match (self.matrix, self.edition) {
            (0, _) => Ok((Formulas::Swap, rgb == y && y == c && equal_flags)),
            (1, _) => luma(2126, 722),
            (2, _) => Err(2),
            (4, _) => luma(3000, 1100),
            (5 | 6, _) => luma(2990, 1140),
            (7, _) => luma(2120, 870),
            (8, _) if c == y => Ok((Formulas::Lossy, rgb == y && equal_flags)),
            (8, _) => Ok((Formulas::Lossless, rgb == y && c == y + 1 && equal_flags)),
            (9, _) => luma(2627, 593),
            (10..=14, _) | (15, PUBLISHED) => Err(3),
            (15, DRAFT) | (16, PUBLISHED) => deeper(2),
            (16, DRAFT) | (17, PUBLISHED) => deeper(1),
            _ => Err(1),
        }
    }
}
