//! The box and those that it is compared with, under one signature.

use crate::frame::{self, Output, Source};
use crate::judge::{self, Difference, Judgement};
use crate::pictures::{Read, Shape, Write};
use crate::setting::{Refusal, Setting, Way};
use crate::yardstick;
use corkplover as cork;

fn for_box(s: &Setting) -> cork::Setting {
    cork::Setting {
        edition: s.edition,
        primaries: s.primaries,
        transfer: s.transfer,
        matrix: s.matrix,
        rgb_depth: s.rgb_depth,
        y_depth: s.y_depth,
        c_depth: s.c_depth,
        rgb_full: s.rgb_full,
        ycc_full: s.ycc_full,
    }
}

fn refusal(r: cork::Refusal) -> Refusal {
    match r.number {
        10 => Refusal::Sample(usize::from(r.plane), usize::from(r.row), usize::from(r.column), r.sample),
        number => Refusal::Number(number),
    }
}

pub fn by_box(s: &Setting, way: Way, shape: &Shape, from: Read, to: Write) -> Result<(), Refusal> {
    let source = cork::Source { planes: from, stride: shape.source_stride };
    let mut output = cork::Output { planes: to, stride: shape.output_stride };
    let convert = if way == Way::Forward { cork::forward_frame } else { cork::reverse_frame };
    convert(&for_box(s), shape.width, shape.height, source, &mut output).map_err(refusal)
}

/// The box's image check: whether every pixel has a source.
pub fn check_by_box(s: &Setting, shape: &Shape, planes: Read) -> bool {
    let source = cork::Source { planes, stride: shape.source_stride };
    cork::image_check(&for_box(s), shape.width, shape.height, source) == Ok(None)
}

/// The plain converter, which serves every setting.
pub fn by_plain(s: &Setting, way: Way, shape: &Shape, from: Read, to: Write) -> Result<(), Refusal> {
    let source = Source { planes: from, stride: shape.source_stride };
    let mut output = Output { planes: to, stride: shape.output_stride };
    frame::convert(s, way, shape.width, shape.height, &source, &mut output)
}

/// The box's judgement of a claimed frame, which has the shape's output stride.
pub fn judge_by_box(s: &Setting, way: Way, shape: &Shape, from: Read, claimed: Read) -> Judgement {
    let source = cork::Source { planes: from, stride: shape.source_stride };
    let claimed = cork::Source { planes: claimed, stride: shape.output_stride };
    let judge = if way == Way::Forward { cork::judge_forward } else { cork::judge_reverse };
    let found = judge(&for_box(s), shape.width, shape.height, source, claimed).map_err(refusal)?;
    Ok(found.map(|first| Difference { row: usize::from(first.row), column: usize::from(first.column), wrong: first.wrong }))
}

pub fn judge_by_plain(s: &Setting, way: Way, shape: &Shape, from: Read, claimed: Read) -> Judgement {
    let source = Source { planes: from, stride: shape.source_stride };
    let claimed = Source { planes: claimed, stride: shape.output_stride };
    judge::judge(s, way, shape.width, shape.height, &source, &claimed)
}

pub fn by_yardstick(shape: &Shape, from: Read, to: Write) -> Result<(), Refusal> {
    let source = Source { planes: from, stride: shape.source_stride };
    let mut output = Output { planes: to, stride: shape.output_stride };
    yardstick::convert(shape.width, shape.height, &source, &mut output)
}

pub fn by_biased_yardstick(shape: &Shape, from: Read, to: Write) -> Result<(), Refusal> {
    let source = Source { planes: from, stride: shape.source_stride };
    let mut output = Output { planes: to, stride: shape.output_stride };
    yardstick::convert_biased(shape.width, shape.height, &source, &mut output)
}
