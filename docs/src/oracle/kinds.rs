//! What is served, and under which number in which edition.

use crate::rules::{is_lossless, Setting};

/// The numbers that stand for an edition, oldest first.
pub const EDITIONS: [u8; 3] = [1, 2, 3];
pub const PUBLISHED: u8 = 3;

/// A matrix that is served, and whether its lossless form is meant: code 8 has
/// both forms.
#[derive(Clone, Copy, Debug, PartialEq, Eq)]
pub struct Kind {
    /// Its code in each of `EDITIONS` that has it.
    codes: [Option<u8>; 3],
    pub lossless: bool,
}

pub const IDENTITY: Kind = of_all(0, true);
pub const LOSSY_YCGCO: Kind = of_all(8, false);
pub const YCGCO_R: Kind = of_all(8, true);
pub const YCGCO_RE: Kind = of_newer(15, 16);
pub const YCGCO_RO: Kind = of_newer(16, 17);

pub const LUMA_KINDS: [Kind; 6] = [
    of_all(1, false),
    of_all(4, false),
    of_all(5, false),
    of_all(6, false),
    of_all(7, false),
    of_all(9, false),
];

/// Every kind. The published edition has all of them.
pub const KINDS: [Kind; 11] = [
    IDENTITY,
    LUMA_KINDS[0],
    LUMA_KINDS[1],
    LUMA_KINDS[2],
    LUMA_KINDS[3],
    LUMA_KINDS[4],
    LOSSY_YCGCO,
    YCGCO_R,
    LUMA_KINDS[5],
    YCGCO_RE,
    YCGCO_RO,
];

/// A matrix that has the same code in all editions.
const fn of_all(code: u8, lossless: bool) -> Kind {
    Kind {
        codes: [Some(code); 3],
        lossless,
    }
}

/// A lossless matrix that the text of 2021 doesn't have.
const fn of_newer(in_draft: u8, published: u8) -> Kind {
    Kind {
        codes: [None, Some(in_draft), Some(published)],
        lossless: true,
    }
}

impl Kind {
    /// The kind of an accepted setting.
    pub fn of(s: &Setting) -> Kind {
        let fits = |kind: &&Kind| {
            kind.code_in(s.edition) == Some(s.matrix) && kind.lossless == is_lossless(s)
        };
        *KINDS.iter().find(fits).expect("a kind of what is served")
    }

    /// None where the edition doesn't have it.
    pub fn code_in(&self, edition: u8) -> Option<u8> {
        let place = EDITIONS.iter().position(|&number| number == edition)?;
        self.codes[place]
    }

    /// The editions that have it.
    pub fn editions(&self) -> Vec<u8> {
        let has_it = |edition: &u8| self.code_in(*edition).is_some();
        EDITIONS.iter().copied().filter(has_it).collect()
    }

    pub fn is_luma(&self) -> bool {
        LUMA_KINDS.contains(self)
    }
}

/// All kinds that are lossless, or all that are not.
pub fn kinds_by_loss(lossless: bool) -> Vec<Kind> {
    let wanted = |kind: &Kind| kind.lossless == lossless;
    KINDS.iter().copied().filter(wanted).collect()
}
