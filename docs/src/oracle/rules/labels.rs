//! What an edition of H.273 has assigned, left unspecified and reserved.

use super::matrix::{matrix_of, Matrix};
use super::refusals::{named_edition, Refusal};

#[derive(Clone, Copy, Debug, PartialEq, Eq)]
pub enum Label {
    Assigned,
    Unspecified,
    Reserved,
}

/// The same in every edition.
pub fn primaries_label(edition: u8, code: u8) -> Result<Label, Refusal> {
    named_edition(edition)?;
    Ok(match code {
        1 | 4..=12 | 22 => Label::Assigned,
        2 => Label::Unspecified,
        _ => Label::Reserved,
    })
}

/// The same in every edition.
pub fn transfer_label(edition: u8, code: u8) -> Result<Label, Refusal> {
    named_edition(edition)?;
    Ok(match code {
        1 | 4..=18 => Label::Assigned,
        2 => Label::Unspecified,
        _ => Label::Reserved,
    })
}

pub fn matrix_label(edition: u8, code: u8) -> Result<Label, Refusal> {
    Ok(match matrix_of(named_edition(edition)?, code) {
        Matrix::Unspecified => Label::Unspecified,
        Matrix::Reserved => Label::Reserved,
        _ => Label::Assigned,
    })
}
