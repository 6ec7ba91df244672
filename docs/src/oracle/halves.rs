//! Finds pixels whose Round is given an exact half. Chance alone hits few of
//! them, and they are where roundings differ.

use crate::fraction::Fraction;
use crate::random::Random;
use crate::rules::{output_depths, source_depths, unrounded, Pixel, Setting, Unrounded, Way};

/// One plane of one conversion that rounds.
#[derive(Clone, Copy)]
pub struct Target {
    pub setting: Setting,
    pub way: Way,
    pub plane: usize,
}

impl Target {
    pub fn at(&self, pixel: Pixel) -> Unrounded {
        let three = unrounded(&self.setting, self.way, pixel);
        three.expect("a conversion that rounds")[self.plane]
    }

    pub fn output_depth(&self) -> u8 {
        output_depths(&self.setting, self.way)[self.plane]
    }

    pub fn random_pixel(&self, random: &mut Random) -> Pixel {
        source_depths(&self.setting, self.way).map(|depth| random.sample(depth))
    }

    /// How many values the source plane's samples have.
    pub fn values(&self, plane: usize) -> u32 {
        1 << source_depths(&self.setting, self.way)[plane]
    }

    /// A half that Clip leaves alone whichever way it is rounded.
    pub fn is_visible_half(&self, pixel: Pixel) -> bool {
        let found = self.at(pixel);
        let below = (found.argument.top() - 1) / 2 + found.add;
        let inside = 0..1 << self.output_depth();
        found.argument.is_half() && inside.contains(&below) && inside.contains(&(below + 1))
    }

    /// Chroma below its middle value, where the difference of colours is
    /// negative. Full range rounds such a half down, narrow range up.
    pub fn is_below_middle(&self, pixel: Pixel) -> bool {
        let found = self.at(pixel);
        let middle = Fraction::whole((1 << (self.output_depth() - 1)) - found.add);
        self.way == Way::Forward && self.plane > 0 && (found.argument - middle).top() < 0
    }
}

/// Round's argument is (constant + the sum of slope times sample) / bottom.
/// The rules are asked for it at four pixels, so nothing of theirs is written
/// a second time here.
struct Line {
    constant: i128,
    slopes: [i128; 3],
    bottom: i128,
}

impl Line {
    fn of(target: &Target) -> Line {
        let origin = target.at([0, 0, 0]).argument;
        let slopes = [[1, 0, 0], [0, 1, 0], [0, 0, 1]].map(|p| target.at(p).argument - origin);
        let bottom = slopes
            .iter()
            .fold(origin.bottom(), |b, slope| lowest_common(b, slope.bottom()));
        let over_bottom = |f: Fraction| f.top() * (bottom / f.bottom());
        Line {
            constant: over_bottom(origin),
            slopes: slopes.map(over_bottom),
            bottom,
        }
    }

    fn top_at(&self, pixel: Pixel) -> i128 {
        let mut top = self.constant;
        for plane in 0..3 {
            top += self.slopes[plane] * i128::from(pixel[plane]);
        }
        top
    }
}

fn lowest_common(a: i128, b: i128) -> i128 {
    a * Fraction::new(b, a).top()
}

/// What `find` looks for, and how long.
#[derive(Clone, Copy)]
pub struct Wanted {
    pub below_middle: bool,
    pub walks: u32,
}

/// A pixel with a visible half on the wanted side, if walks along random lines
/// of pixels meet one; and the plane that the walk went along.
pub fn find(random: &mut Random, target: &Target, wanted: Wanted) -> Option<(Pixel, usize)> {
    let line = Line::of(target);
    for _ in 0..wanted.walks {
        let mut pixel = target.random_pixel(random);
        let along = random.below(3) as usize;
        pixel[along] = 0;
        if let Some(found) = walk(target, &line, pixel, along, wanted.below_middle) {
            return Some((found, along));
        }
    }
    None
}

/// Walks from `pixel` along one plane. `rest` is twice the top modulo twice
/// the bottom, kept by addition alone; it is the bottom at an exact half.
fn walk(
    target: &Target,
    line: &Line,
    mut pixel: Pixel,
    along: usize,
    below_middle: bool,
) -> Option<Pixel> {
    let cycle = 2 * line.bottom;
    let step = (2 * line.slopes[along]).rem_euclid(cycle);
    let mut rest = (2 * line.top_at(pixel)).rem_euclid(cycle);
    for value in 0..target.values(along) {
        if rest == line.bottom {
            pixel[along] = value as u16;
            let right_side = target.is_below_middle(pixel) == below_middle;
            if right_side && target.is_visible_half(pixel) {
                return Some(pixel);
            }
        }
        rest += step;
        if rest >= cycle {
            rest -= cycle;
        }
    }
    None
}

/// The last value along a plane at which the sum before Clip is still on its
/// side of the border between `border` and `border + 1`. None if all values
/// are on one side. The sum only rises or only falls along a plane.
pub fn last_before(target: &Target, mut pixel: Pixel, along: usize, border: i128) -> Option<u16> {
    let mut above = |value: u32| {
        pixel[along] = value as u16;
        target.at(pixel).sum() > border
    };
    let mut low = 0;
    let mut high = target.values(along) - 1;
    let side = above(low);
    if above(high) == side {
        return None;
    }
    while high - low > 1 {
        let middle = (low + high) / 2;
        if above(middle) == side {
            low = middle;
        } else {
            high = middle;
        }
    }
    Some(low as u16)
}
