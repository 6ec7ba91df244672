//! The colour record 'nclx' of ISO/IEC 14496-12: four letters, three codes of
//! two bytes each with the high byte first, and a byte whose highest bit is the
//! full-range flag and whose other seven are reserved, and zero.

use super::refusals::Refusal;

const LETTERS: [u8; 4] = *b"nclx";
const FULL: u8 = 0x80;
const UNSPECIFIED: u8 = 2;

/// What a record says of a picture's colours.
#[derive(Clone, Copy, Debug, PartialEq, Eq)]
pub struct ColourLabel {
    pub primaries: u8,
    pub transfer: u8,
    pub matrix: u8,
    pub full: bool,
}

#[derive(Clone, Copy, Debug, PartialEq, Eq)]
pub enum Origin {
    Container,
    Stream,
}

/// The label in a record, or refusals 20 to 23: the first rule that the record
/// breaks.
pub fn read_record(record: &[u8]) -> Result<ColourLabel, Refusal> {
    let bytes: [u8; 11] = record.try_into().map_err(|_| Refusal::Number(20))?;
    if bytes[..4] != LETTERS {
        return Err(Refusal::Number(21));
    }
    let primaries = code(bytes[4], bytes[5])?;
    let transfer = code(bytes[6], bytes[7])?;
    let matrix = code(bytes[8], bytes[9])?;
    if bytes[10] % FULL != 0 {
        return Err(Refusal::Number(23));
    }
    Ok(ColourLabel {
        primaries,
        transfer,
        matrix,
        full: bytes[10] == FULL,
    })
}

/// A code that fits into a byte, or refusal 22.
fn code(high: u8, low: u8) -> Result<u8, Refusal> {
    let number = 256 * u16::from(high) + u16::from(low);
    u8::try_from(number).map_err(|_| Refusal::Number(22))
}

pub fn written_record(label: ColourLabel) -> [u8; 11] {
    let [n, c, l, x] = LETTERS;
    let last = if label.full { FULL } else { 0 };
    [
        n,
        c,
        l,
        x,
        0,
        label.primaries,
        0,
        label.transfer,
        0,
        label.matrix,
        last,
    ]
}

/// Which of two records wins, and its last seven bytes. The container's does
/// unless it is refused or leaves a code unspecified; then the stream's does
/// unless it is refused. If none wins: the container's refusal, or 24 where it
/// has none.
pub fn pick_record<'a>(
    container: &'a [u8],
    stream: &'a [u8],
) -> Result<(Origin, &'a [u8]), Refusal> {
    let of_container = read_record(container);
    let of_stream = read_record(stream);
    match (of_container, of_stream) {
        (Ok(label), _) if settles(&label) => Ok((Origin::Container, &container[4..])),
        (_, Ok(_)) => Ok((Origin::Stream, &stream[4..])),
        (Err(refusal), Err(_)) => Err(refusal),
        (Ok(_), Err(_)) => Err(Refusal::Number(24)),
    }
}

fn settles(label: &ColourLabel) -> bool {
    [label.primaries, label.transfer, label.matrix]
        .iter()
        .all(|&code| code != UNSPECIFIED)
}
