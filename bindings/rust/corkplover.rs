//! Corkplover for Rust: R, G, B into luma and chroma or back, and the colour labels of media files. The manual is
//! `include/corkplover.h`; names, answers and refusals are the same here. Whatever a caller owes the library is a matter of types here:
//! slices know their lengths, and an output plane is borrowed for writing, so that it overlaps nothing.
//!
//! Compile as a crate of its own, with the folder of libcorkplover.a in the search path:
//! `rustc -O --edition 2021 --crate-type rlib -L native=FOLDER corkplover.rs`

/// The text of 2021.
pub const EDITION_2021: u8 = 1;
/// The draft of the third edition.
pub const EDITION_DRAFT: u8 = 2;
/// The published third edition: that of the files of today.
pub const EDITION_PUBLISHED: u8 = 3;

/// The edition is the text of H.273 that numbers the codes. One that is none of the three is refused, and there is no setting by
/// default: so none is ever guessed.
#[derive(Clone, Copy, Debug, PartialEq, Eq)]
pub struct Setting {
    pub primaries: u8,
    pub transfer: u8,
    pub matrix: u8,
    pub rgb_depth: u8,
    pub y_depth: u8,
    pub c_depth: u8,
    pub rgb_full: bool,
    pub ycc_full: bool,
    pub edition: u8,
}

/// Three planes that share a stride, to be read.
#[derive(Clone, Copy, Debug)]
pub struct Source<'a> {
    pub planes: [&'a [u16]; 3],
    pub stride: usize,
}

/// Three planes that share a stride, to be written.
#[derive(Debug)]
pub struct Output<'a> {
    pub planes: [&'a mut [u16]; 3],
    pub stride: usize,
}

/// What an edition says of one code point. What a media file says of its picture is a `ColourLabel`.
#[derive(Clone, Copy, Debug, PartialEq, Eq)]
pub enum Label {
    Assigned,
    Unspecified,
    Reserved,
}

/// Why a call was refused. Plane, row, column and sample are 0 but for number 10, where they name the first sample that is too large: where it
/// stands, and its number as it was found.
#[derive(Clone, Copy, Debug, PartialEq, Eq)]
pub struct Refusal {
    pub number: u8,
    pub plane: u8,
    pub row: u16,
    pub column: u16,
    pub sample: u16,
}

/// Where a claimed frame is wrong: row and column of the first wrong pixel, and how many pixels are wrong in the whole picture.
#[derive(Clone, Copy, Debug, PartialEq, Eq)]
pub struct Difference {
    pub row: u16,
    pub column: u16,
    pub wrong: u64,
}

#[derive(Clone, Copy, Debug, PartialEq)]
pub struct Levels {
    pub y: f32,
    pub cb: f32,
    pub cr: f32,
}

/// How many bytes a colour record of a media file has, and how many of them, the last, are the label itself.
pub const RECORD_BYTES: usize = 11;
pub const LABEL_PART_BYTES: usize = 7;

/// What a media file's colour record, `nclx` of ISO/IEC 14496-12, says of the picture.
#[derive(Clone, Copy, Debug, PartialEq, Eq)]
pub struct ColourLabel {
    pub primaries: u8,
    pub transfer: u8,
    pub matrix: u8,
    pub full: bool,
}

#[derive(Clone, Copy, Debug, PartialEq, Eq)]
pub enum Winner {
    Container,
    Stream,
}

/// The record that won, and its last bytes, which are the label itself.
#[derive(Clone, Copy, Debug, PartialEq, Eq)]
pub struct Picked<'a> {
    pub winner: Winner,
    pub part: &'a [u8; LABEL_PART_BYTES],
}

const TEXTS: [(u8, &str); 18] = [
    (0, "accepted"),
    (1, "the matrix code is reserved"),
    (2, "the matrix code is 2, unspecified"),
    (3, "the matrix code is known and not served"),
    (4, "the primaries code is reserved"),
    (5, "the transfer code is reserved"),
    (6, "a depth is not served"),
    (7, "depths or range flags do not agree with the matrix"),
    (8, "the width, the height or a stride is not served"),
    (9, "a plane is too short for the picture"),
    (10, "a source sample is too large for its depth"),
    (11, "the meter needs a luma matrix, the image check a lossless setting"),
    (12, "the edition is none of 1 (2021), 2 (draft) and 3 (published)"),
    (20, "a colour record has 11 bytes, and not any other number"),
    (21, "the colour record does not begin with the letters nclx"),
    (22, "a code of the colour record is above 255"),
    (23, "a reserved bit of the colour record is set"),
    (24, "the container's record has a code 2, unspecified, and the stream's is not well formed"),
];

/// The refusal in words.
pub fn refusal_text(number: u8) -> &'static str {
    TEXTS.iter().find(|text| text.0 == number).map_or("not a refusal number", |text| text.1)
}

// The library's compiler knows nothing of these lines; tests/clients/run compares them with its source and calls each.
#[link(name = "corkplover", kind = "static")]
extern "C" {
    fn corkplover_primaries_label(edition: u8, code: u8) -> u8;
    fn corkplover_transfer_label(edition: u8, code: u8) -> u8;
    fn corkplover_matrix_label(edition: u8, code: u8) -> u8;
    fn corkplover_forward_pixel(setting: u64, r: u16, g: u16, b: u16) -> u64;
    fn corkplover_reverse_pixel(setting: u64, y: u16, cb: u16, cr: u16) -> u64;
    fn corkplover_forward_frame(setting: u64, width: usize, height: usize, source_stride: usize, output_stride: usize,
        r: *const u16, rs: usize, g: *const u16, gs: usize, b: *const u16, bs: usize,
        y: *mut u16, ys: usize, cb: *mut u16, cbs: usize, cr: *mut u16, crs: usize) -> u64;
    fn corkplover_reverse_frame(setting: u64, width: usize, height: usize, source_stride: usize, output_stride: usize,
        y: *const u16, ys: usize, cb: *const u16, cbs: usize, cr: *const u16, crs: usize,
        r: *mut u16, rs: usize, g: *mut u16, gs: usize, b: *mut u16, bs: usize) -> u64;
    fn corkplover_image_check(setting: u64, width: usize, height: usize, stride: usize,
        y: *const u16, ys: usize, cb: *const u16, cbs: usize, cr: *const u16, crs: usize) -> u64;
    fn corkplover_judge_forward(setting: u64, width: usize, height: usize, source_stride: usize, claimed_stride: usize,
        r: *const u16, rs: usize, g: *const u16, gs: usize, b: *const u16, bs: usize,
        y: *const u16, ys: usize, cb: *const u16, cbs: usize, cr: *const u16, crs: usize, wrong: *mut u64) -> u64;
    fn corkplover_judge_reverse(setting: u64, width: usize, height: usize, source_stride: usize, claimed_stride: usize,
        y: *const u16, ys: usize, cb: *const u16, cbs: usize, cr: *const u16, crs: usize,
        r: *const u16, rs: usize, g: *const u16, gs: usize, b: *const u16, bs: usize, wrong: *mut u64) -> u64;
    fn corkplover_meter_y(setting: u64, y: u16, level: *mut f32) -> u64;
    fn corkplover_meter_cb(setting: u64, cb: u16, level: *mut f32) -> u64;
    fn corkplover_meter_cr(setting: u64, cr: u16, level: *mut f32) -> u64;
    fn corkplover_meter_pixel(setting: u64, y: u16, cb: u16, cr: u16, y_level: *mut f32, cb_level: *mut f32, cr_level: *mut f32) -> u64;
    fn corkplover_read_label(record: *const u8, record_length: usize) -> u64;
    fn corkplover_write_label(primaries: u8, transfer: u8, matrix: u8, full: bool, out: *mut u8, out_length: usize) -> u64;
    fn corkplover_pick_label(container: *const u8, container_length: usize, stream: *const u8, stream_length: usize) -> u64;
}

/// A setting as the library takes it: a byte for each code and depth, from the lowest byte up, then a bit for each flag, and the edition in
/// the highest byte.
fn word(s: &Setting) -> u64 {
    let flags = u8::from(s.rgb_full) + 2 * u8::from(s.ycc_full);
    u64::from_le_bytes([s.primaries, s.transfer, s.matrix, s.rgb_depth, s.y_depth, s.c_depth, flags, s.edition])
}

/// Calls an export with the setting before everything else. The first form hands on planes to be read and planes to be written, each as its
/// pointer and its own length, and what comes after them. Safe, since every pointer is that of a slice or a variable which stays borrowed
/// while the call lasts.
macro_rules! call {
    ($export:ident, $s:expr, ($($size:expr),*), [$($read:ident),*], [$($output:ident),*] $(, $last:expr)?) => {
        call!($export, $s, $($size,)* $($read.as_ptr(), $read.len(),)* $($output.as_mut_ptr(), $output.len(),)* $($last)?)
    };
    ($export:ident, $s:expr, $($more:expr),* $(,)?) => {
        unsafe { $export(word($s), $($more),*) }
    };
}

fn refusal(packed: u64) -> Refusal {
    Refusal {
        number: packed as u8,
        plane: (packed >> 8) as u8,
        row: (packed >> 16) as u16,
        column: (packed >> 32) as u16,
        sample: (packed >> 48) as u16,
    }
}

/// The packed answer where it is accepted.
fn accepted(packed: u64) -> Result<u64, Refusal> {
    match packed as u8 {
        0 => Ok(packed),
        _ => Err(refusal(packed)),
    }
}

/// Row and column that an accepted search for a pixel names, where it found one.
fn place(packed: u64) -> Option<(u16, u16)> {
    let none = (packed >> 8) as u8 == 0;
    if none { None } else { Some(((packed >> 16) as u16, (packed >> 32) as u16)) }
}

fn difference(packed: u64, wrong: u64) -> Option<Difference> {
    place(packed).map(|(row, column)| Difference { row, column, wrong })
}

fn samples(packed: u64) -> [u16; 3] {
    [(packed >> 16) as u16, (packed >> 32) as u16, (packed >> 48) as u16]
}

/// A label, or the refusal of an edition that is none: its number stands where a label's would.
fn label(number: u8) -> Result<Label, Refusal> {
    match number {
        0 => Ok(Label::Assigned),
        1 => Ok(Label::Unspecified),
        2 => Ok(Label::Reserved),
        _ => Err(refusal(u64::from(number))),
    }
}

pub fn primaries_label(edition: u8, code: u8) -> Result<Label, Refusal> {
    label(unsafe { corkplover_primaries_label(edition, code) })
}

pub fn transfer_label(edition: u8, code: u8) -> Result<Label, Refusal> {
    label(unsafe { corkplover_transfer_label(edition, code) })
}

pub fn matrix_label(edition: u8, code: u8) -> Result<Label, Refusal> {
    label(unsafe { corkplover_matrix_label(edition, code) })
}

/// Y, Cb and Cr of an RGB pixel.
pub fn forward_pixel(s: &Setting, [r, g, b]: [u16; 3]) -> Result<[u16; 3], Refusal> {
    accepted(call!(corkplover_forward_pixel, s, r, g, b)).map(samples)
}

/// R, G and B of a Y, Cb, Cr pixel.
pub fn reverse_pixel(s: &Setting, [y, cb, cr]: [u16; 3]) -> Result<[u16; 3], Refusal> {
    accepted(call!(corkplover_reverse_pixel, s, y, cb, cr)).map(samples)
}

/// Converts a frame. Nothing that the output held before is left: accepted, it has the picture and zeros; refused, zeros alone.
pub fn forward_frame(s: &Setting, width: usize, height: usize, source: Source, output: &mut Output) -> Result<(), Refusal> {
    let ([r, g, b], [y, cb, cr]) = (source.planes, &mut output.planes);
    accepted(call!(corkplover_forward_frame, s, (width, height, source.stride, output.stride), [r, g, b], [y, cb, cr])).map(|_| ())
}

pub fn reverse_frame(s: &Setting, width: usize, height: usize, source: Source, output: &mut Output) -> Result<(), Refusal> {
    let ([y, cb, cr], [r, g, b]) = (source.planes, &mut output.planes);
    accepted(call!(corkplover_reverse_frame, s, (width, height, source.stride, output.stride), [y, cb, cr], [r, g, b])).map(|_| ())
}

/// None if some RGB picture converts to this one; else row and column of the first pixel without a source.
pub fn image_check(s: &Setting, width: usize, height: usize, ycc: Source) -> Result<Option<(u16, u16)>, Refusal> {
    let [y, cb, cr] = ycc.planes;
    accepted(call!(corkplover_image_check, s, (width, height, ycc.stride), [y, cb, cr], [])).map(place)
}

/// None if the claimed Y, Cb, Cr frame is what the formulas make of the R, G, B source; else where it is wrong. A claimed sample above its
/// depth is wrong, and never refused.
pub fn judge_forward(s: &Setting, width: usize, height: usize, source: Source, claimed: Source) -> Result<Option<Difference>, Refusal> {
    let ([r, g, b], [y, cb, cr], mut wrong) = (source.planes, claimed.planes, 0);
    accepted(call!(corkplover_judge_forward, s, (width, height, source.stride, claimed.stride), [r, g, b, y, cb, cr], [], &mut wrong))
        .map(|packed| difference(packed, wrong))
}

/// The same the other way: the claim is R, G, B.
pub fn judge_reverse(s: &Setting, width: usize, height: usize, source: Source, claimed: Source) -> Result<Option<Difference>, Refusal> {
    let ([y, cb, cr], [r, g, b], mut wrong) = (source.planes, claimed.planes, 0);
    accepted(call!(corkplover_judge_reverse, s, (width, height, source.stride, claimed.stride), [y, cb, cr, r, g, b], [], &mut wrong))
        .map(|packed| difference(packed, wrong))
}

pub fn meter_y(s: &Setting, y: u16) -> Result<f32, Refusal> {
    let mut level = 0.0;
    accepted(call!(corkplover_meter_y, s, y, &mut level)).map(|_| level)
}

pub fn meter_cb(s: &Setting, cb: u16) -> Result<f32, Refusal> {
    let mut level = 0.0;
    accepted(call!(corkplover_meter_cb, s, cb, &mut level)).map(|_| level)
}

pub fn meter_cr(s: &Setting, cr: u16) -> Result<f32, Refusal> {
    let mut level = 0.0;
    accepted(call!(corkplover_meter_cr, s, cr, &mut level)).map(|_| level)
}

pub fn meter_pixel(s: &Setting, [y, cb, cr]: [u16; 3]) -> Result<Levels, Refusal> {
    let mut levels = Levels { y: 0.0, cb: 0.0, cr: 0.0 };
    let packed = call!(corkplover_meter_pixel, s, y, cb, cr, &mut levels.y, &mut levels.cb, &mut levels.cr);
    accepted(packed).map(|_| levels)
}

/// The label in a colour record. Refusals: 20 to 23.
pub fn read_label(record: &[u8]) -> Result<ColourLabel, Refusal> {
    let packed = accepted(unsafe { corkplover_read_label(record.as_ptr(), record.len()) })?;
    let [_, full, primaries, _, transfer, _, matrix, _] = packed.to_le_bytes();
    Ok(ColourLabel { primaries, transfer, matrix, full: full != 0 })
}

/// The colour record of a label; every label has one.
pub fn write_label(label: ColourLabel) -> [u8; RECORD_BYTES] {
    let ColourLabel { primaries, transfer, matrix, full } = label;
    let mut record = [0; RECORD_BYTES];
    let packed = unsafe { corkplover_write_label(primaries, transfer, matrix, full, record.as_mut_ptr(), record.len()) };
    assert_eq!(packed, 0, "a record of the right length is written");
    record
}

/// The container's record or the stream's: the container's if it can be read and none of its codes is 2, else the stream's if it can be
/// read. Where neither wins, the refusal is the container's own, or 24 where it has none.
pub fn pick_label<'a>(container: &'a [u8], stream: &'a [u8]) -> Result<Picked<'a>, Refusal> {
    let packed = unsafe { corkplover_pick_label(container.as_ptr(), container.len(), stream.as_ptr(), stream.len()) };
    let (winner, record) = match (accepted(packed)? >> 8) as u8 {
        0 => (Winner::Container, container),
        _ => (Winner::Stream, stream),
    };
    let part = record[RECORD_BYTES - LABEL_PART_BYTES..].try_into().expect("a record that wins has 11 bytes");
    Ok(Picked { winner, part })
}
