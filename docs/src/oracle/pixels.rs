//! Picks single pixels for the cases.

use crate::random::Random;
use crate::rules::{converted, has_source, source_depths, Pixel, Setting, Way};

/// A pixel of the side that is read, within the setting's depths where they
/// are depths at all.
pub fn within_depth(random: &mut Random, s: &Setting, way: Way) -> Pixel {
    source_depths(s, way).map(|depth| random.sample(depth.min(16)))
}

/// An RGB pixel with most samples at or near the ends of the depth.
pub fn extreme_rgb(random: &mut Random, s: &Setting) -> Pixel {
    let largest = ((1u32 << s.rgb_depth) - 1) as u16;
    [0; 3].map(|_| {
        let any = random.sample(s.rgb_depth);
        random.pick(&[0, 0, 1, largest - 1, largest, largest, any])
    })
}

/// A pixel near the one given, within depth: one sample moved a little.
pub fn moved(random: &mut Random, s: &Setting, ycc: Pixel) -> Pixel {
    let plane = random.below(3) as usize;
    let step = random.pick(&[-2, -1, -1, 1, 1, 2]);
    let largest = (1i32 << source_depths(s, Way::Reverse)[plane]) - 1;
    let mut near = ycc;
    near[plane] = (i32::from(ycc[plane]) + step).clamp(0, largest) as u16;
    near
}

/// A YCbCr pixel that comes from an RGB one within depth.
pub fn with_source(random: &mut Random, s: &Setting) -> Pixel {
    let rgb = if random.flag() {
        extreme_rgb(random, s)
    } else {
        within_depth(random, s, Way::Forward)
    };
    converted(s, Way::Forward, rgb)
}

/// A YCbCr pixel within depth that comes from no RGB one: next to one that
/// does, or anywhere. On code 0 there are none such.
pub fn without_source(random: &mut Random, s: &Setting) -> Pixel {
    loop {
        let ycc = if random.flag() {
            let near = with_source(random, s);
            moved(random, s, near)
        } else {
            within_depth(random, s, Way::Reverse)
        };
        if !has_source(s, ycc) {
            return ycc;
        }
    }
}
