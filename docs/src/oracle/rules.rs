//! The converter's rules, as docs/RULES.md has them. Nothing here is fast or
//! clever; each function says one rule, so that it can be read beside the rule
//! it says. Equation numbers are those of the third-edition draft of H.273,
//! clause 8.3.

mod edition;
mod frames;
mod judging;
mod labels;
mod luma;
mod matrix;
mod meter;
mod numbers;
mod pixels;
mod records;
mod refusals;
mod setting;
mod ycgco;

pub use frames::{convert_frame, first_without_source, Side, Size};
pub use judging::{judge_frame, Difference};
pub use labels::{matrix_label, primaries_label, transfer_label, Label};
pub use luma::{levels_forward, levels_reverse};
pub use meter::{meter_pixel, meter_sample};
pub use numbers::Unrounded;
pub use pixels::{convert_pixel, converted, has_source, pixel_has_source, unrounded};
pub use records::{pick_record, read_record, written_record, ColourLabel, Origin};
pub use refusals::{setting_refusal, Refusal};
pub use setting::{is_lossless, luma_weights, output_depths, source_depths, Pixel, Setting, Way};
