//! Answers case texts: takes one case line at a time and writes its answer.
//!
//! Pixel cases: `f` forward, `r` reverse, `s` source check, `m` meter of a
//! pixel, `y` `b` `c` meter of one sample, `p` `t` `x` labels. Frame cases:
//! `F` forward, `R` reverse, `I` image check, `J` a claimed frame judged forward,
//! `K` one judged in reverse. A setting starts with its edition, and a label case
//! has the edition before the code. `J` and `K` have width, height, the source's
//! stride and the claimed one, then three source planes and three claimed ones,
//! each as its length and its elements. Record cases, which have no edition: `N` a
//! colour record read, as its length and its bytes; `W` a label written, its three
//! codes and its flag; `P` one of two records picked, the container's and then the
//! stream's. The answer to `F` and `R` has four lines, the last three of them the
//! output planes; all others have one.

use crate::rules::{
    self, ColourLabel, Difference, Label, Origin, Pixel, Refusal, Setting, Side, Way,
};
use crate::words::Words;

/// The answers to a whole text, or words that name the line at fault.
pub fn answer_text(cases: &str) -> Result<String, String> {
    let mut answers = String::new();
    for (index, line) in cases.split_terminator('\n').enumerate() {
        let answer = answer_line(line).map_err(|why| format!("line {}: {}", index + 1, why))?;
        answers.push_str(&answer);
        answers.push('\n');
    }
    Ok(answers)
}

fn answer_line(line: &str) -> Result<String, String> {
    let mut words = Words::of(line);
    match words.word()? {
        "f" => pixel_case(words, |s, pixel| {
            rules::convert_pixel(s, Way::Forward, pixel).map(samples)
        }),
        "r" => pixel_case(words, |s, pixel| {
            rules::convert_pixel(s, Way::Reverse, pixel).map(samples)
        }),
        "s" => pixel_case(words, |s, pixel| {
            rules::pixel_has_source(s, pixel).map(yes_or_none)
        }),
        "m" => pixel_case(words, |s, pixel| rules::meter_pixel(s, pixel).map(levels)),
        "y" => sample_case(words, 0),
        "b" => sample_case(words, 1),
        "c" => sample_case(words, 2),
        "p" => label_case(words, rules::primaries_label),
        "t" => label_case(words, rules::transfer_label),
        "x" => label_case(words, rules::matrix_label),
        "F" => frame_case(words, Way::Forward),
        "R" => frame_case(words, Way::Reverse),
        "I" => image_case(words),
        "J" => judged_case(words, Way::Forward),
        "K" => judged_case(words, Way::Reverse),
        "N" => read_case(words),
        "W" => written_case(words),
        "P" => picked_case(words),
        other => Err(format!("'{}' is not a kind of case", other)),
    }
}

fn pixel_case(
    mut words: Words,
    call: fn(&Setting, Pixel) -> Result<String, Refusal>,
) -> Result<String, String> {
    let setting = words.setting()?;
    let pixel = words.pixel()?;
    words.end()?;
    Ok(call(&setting, pixel).unwrap_or_else(refused))
}

fn sample_case(mut words: Words, plane: usize) -> Result<String, String> {
    let setting = words.setting()?;
    let value = words.number()?;
    words.end()?;
    let level = rules::meter_sample(&setting, plane, value);
    Ok(level.map_or_else(refused, |e| format!("level {:08x}", e.to_bits())))
}

fn label_case(
    mut words: Words,
    label: fn(u8, u8) -> Result<Label, Refusal>,
) -> Result<String, String> {
    let edition = words.number()?;
    let code = words.number()?;
    words.end()?;
    Ok(label(edition, code).map_or_else(refused, label_word))
}

fn frame_case(mut words: Words, way: Way) -> Result<String, String> {
    let setting = words.setting()?;
    let size = words.size()?;
    let source_stride = words.number()?;
    let output_stride = words.number()?;
    let source = Side {
        stride: source_stride,
        planes: words.planes()?,
    };
    let lengths: [usize; 3] = [words.number()?, words.number()?, words.number()?];
    let fill: u16 = words.number()?;
    words.end()?;
    let mut output = Side {
        stride: output_stride,
        planes: lengths.map(|length| old_contents(length, fill)),
    };
    let outcome = rules::convert_frame(&setting, way, size, &source, &mut output);
    let mut lines = vec![outcome.map_or_else(refused, |()| String::from("done"))];
    lines.extend(output.planes.iter().map(|plane| numbers(plane)));
    Ok(lines.join("\n"))
}

/// What an output plane holds before the call; an answer never shows it.
fn old_contents(length: usize, fill: u16) -> Vec<u16> {
    let element = |index: usize| (u64::from(fill) + 7919 * index as u64) % 65536;
    (0..length).map(|index| element(index) as u16).collect()
}

fn numbers<N: ToString>(row: &[N]) -> String {
    let words: Vec<String> = row.iter().map(N::to_string).collect();
    words.join(" ")
}

fn image_case(mut words: Words) -> Result<String, String> {
    let setting = words.setting()?;
    let size = words.size()?;
    let ycc = Side {
        stride: words.number()?,
        planes: words.planes()?,
    };
    words.end()?;
    let found = rules::first_without_source(&setting, size, &ycc);
    Ok(found.map_or_else(refused, |place| match place {
        None => String::from("yes"),
        Some((row, column)) => format!("none row {} column {}", row, column),
    }))
}

fn judged_case(mut words: Words, way: Way) -> Result<String, String> {
    let setting = words.setting()?;
    let size = words.size()?;
    let source_stride = words.number()?;
    let claimed_stride = words.number()?;
    let source = Side {
        stride: source_stride,
        planes: words.planes()?,
    };
    let claimed = Side {
        stride: claimed_stride,
        planes: words.planes()?,
    };
    words.end()?;
    let judged = rules::judge_frame(&setting, way, size, &source, &claimed);
    Ok(judged.map_or_else(refused, judgement))
}

fn judgement(found: Option<Difference>) -> String {
    match found {
        None => String::from("agrees"),
        Some(first) => format!(
            "differs row {} column {} wrong {}",
            first.row, first.column, first.wrong
        ),
    }
}

fn read_case(mut words: Words) -> Result<String, String> {
    let record = words.bytes()?;
    words.end()?;
    Ok(rules::read_record(&record).map_or_else(refused, colour_label))
}

fn written_case(mut words: Words) -> Result<String, String> {
    let label = words.colour_label()?;
    words.end()?;
    let record = rules::written_record(label);
    Ok(format!("record {}", numbers(&record)))
}

fn picked_case(mut words: Words) -> Result<String, String> {
    let container = words.bytes()?;
    let stream = words.bytes()?;
    words.end()?;
    let picked = rules::pick_record(&container, &stream);
    Ok(picked.map_or_else(refused, |(origin, part)| match origin {
        Origin::Container => format!("container {}", numbers(part)),
        Origin::Stream => format!("stream {}", numbers(part)),
    }))
}

fn colour_label(label: ColourLabel) -> String {
    format!(
        "label {} {} {} {}",
        label.primaries,
        label.transfer,
        label.matrix,
        u8::from(label.full)
    )
}

fn samples(pixel: Pixel) -> String {
    format!("samples {} {} {}", pixel[0], pixel[1], pixel[2])
}

fn levels(three: [f32; 3]) -> String {
    let bits = three.map(f32::to_bits);
    format!("levels {:08x} {:08x} {:08x}", bits[0], bits[1], bits[2])
}

fn label_word(label: Label) -> String {
    String::from(match label {
        Label::Assigned => "assigned",
        Label::Unspecified => "unspecified",
        Label::Reserved => "reserved",
    })
}

fn yes_or_none(found: bool) -> String {
    String::from(if found { "yes" } else { "none" })
}

fn refused(refusal: Refusal) -> String {
    match refusal {
        Refusal::Number(number) => format!("refused {}", number),
        Refusal::Sample(place, sample) => format!(
            "refused 10 plane {} row {} column {} sample {}",
            place.plane, place.row, place.column, sample
        ),
    }
}
