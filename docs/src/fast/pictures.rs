//! Frames to measure with: their shape, planes of random samples, and planes to be written.

pub type Planes = [Vec<u16>; 3];
/// Planes that are lent to be read, and to be written.
pub type Read<'a> = [&'a [u16]; 3];
pub type Write<'a> = [&'a mut [u16]; 3];

#[derive(Clone, Copy, PartialEq, Eq)]
pub struct Shape {
    pub width: usize,
    pub height: usize,
    pub source_stride: usize,
    pub output_stride: usize,
}

impl Shape {
    /// A frame whose rows follow each other.
    pub const fn packed(width: usize, height: usize) -> Shape {
        Shape { width, height, source_stride: width, output_stride: width }
    }

    /// The same where nothing is written.
    pub const fn only_read(self) -> Shape {
        Shape { output_stride: 0, ..self }
    }

    pub fn pixels(&self) -> usize {
        self.width * self.height
    }

    pub fn source_length(&self) -> usize {
        self.height * self.source_stride
    }

    pub fn output_length(&self) -> usize {
        self.height * self.output_stride
    }

    /// How many elements a converter writes for each pixel, of all three planes, cleared ones included.
    pub fn written_per_pixel(&self) -> f64 {
        (3 * self.output_length()) as f64 / self.pixels() as f64
    }
}

/// Three planes of random samples, the same ones in each run. Padding has them too.
pub fn random(length: usize, depths: [u8; 3]) -> Planes {
    let mut state = 1u64;
    depths.map(|depth| {
        let sample = || {
            state = state.wrapping_mul(6364136223846793005).wrapping_add(1442695040888963407);
            (state >> (64 - depth)) as u16
        };
        std::iter::repeat_with(sample).take(length).collect()
    })
}

/// Planes with something in every element, so that one which is left alone shows.
pub fn filled(length: usize) -> Planes {
    let mut planes = [(); 3].map(|_| vec![0; length]);
    fill(&mut planes);
    planes
}

pub fn fill(planes: &mut Planes) {
    planes.iter_mut().for_each(|plane| plane.fill(0xa5a5));
}

pub fn to_read([a, b, c]: &Planes) -> Read<'_> {
    [a, b, c]
}

pub fn to_write([a, b, c]: &mut Planes) -> Write<'_> {
    [a, b, c]
}
