//! The editions of H.273 that a setting may name.

#[derive(Clone, Copy, Debug, PartialEq, Eq)]
pub enum Edition {
    /// The text of July 2021.
    Of2021,
    /// The draft of the third edition.
    Draft,
    /// The third edition as it was published.
    Published,
}

/// The edition that a number stands for; none for every other number.
pub fn edition_of(number: u8) -> Option<Edition> {
    match number {
        1 => Some(Edition::Of2021),
        2 => Some(Edition::Draft),
        3 => Some(Edition::Published),
        _ => None,
    }
}
