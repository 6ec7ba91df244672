//! Makes accepted frames, and spoils them.

use super::frame::{needed, way_of, Frame};
use super::Cases;
use crate::kinds::{Kind, KINDS};
use crate::pixels;
use crate::rules::{source_depths, Pixel, Setting, Side, Size};
use crate::settings;

impl Cases {
    pub fn write(&mut self, frame: &Frame) {
        let fill = self.random.below(65536) as u16;
        self.text.push_str(&frame.words(fill));
        self.text.push('\n');
    }

    /// A kind of setting on which the call is not refused.
    pub fn kind_for(&mut self, letter: char) -> Kind {
        let fits = |kind: &Kind| letter != 'I' || kind.lossless;
        let kinds: Vec<Kind> = KINDS.iter().copied().filter(fits).collect();
        self.random.pick(&kinds)
    }

    /// A good setting with no 16-bit plane, so that every plane can hold a bad
    /// sample.
    pub fn shallow(&mut self, kind: Kind) -> Setting {
        loop {
            let s = settings::good(&mut self.random, kind);
            if s.rgb_depth.max(s.y_depth).max(s.c_depth) < 16 {
                return s;
            }
        }
    }

    pub fn small_size(&mut self) -> Size {
        Size {
            width: 1 + self.random.below(6),
            height: 1 + self.random.below(4),
        }
    }

    /// A plane of noise, mostly above the depth, that has room for the picture
    /// and often a tail.
    pub fn noise(&mut self, length: usize) -> Vec<u16> {
        let mut plane = Vec::new();
        for _ in 0..length {
            let any = self.random.below(65536) as u16;
            plane.push(self.random.pick(&[any, any, 65535, 9]));
        }
        plane
    }

    fn tail(&mut self) -> usize {
        self.random.pick(&[0, 0, 0, 1, 2, 7])
    }

    /// An accepted case; an image check gets pixels that have a source.
    pub fn frame(&mut self, letter: char, setting: Setting, size: Size) -> Frame {
        let stride = size.width + self.random.pick(&[0, 0, 1, 2, 5]);
        let output_stride = size.width + self.random.pick(&[0, 0, 1, 3, 4]);
        self.frame_with_strides(letter, setting, size, [stride, output_stride])
    }

    pub fn frame_with_strides(
        &mut self,
        letter: char,
        setting: Setting,
        size: Size,
        [stride, output_stride]: [u64; 2],
    ) -> Frame {
        let planes = [0; 3].map(|_| {
            let length = needed(size, stride) + self.tail();
            self.noise(length)
        });
        let mut frame = Frame {
            letter,
            setting,
            size,
            source: Side { stride, planes },
            output_stride,
            output_lengths: [0; 3].map(|_| needed(size, output_stride) + self.tail()),
        };
        for row in 0..size.height {
            for column in 0..size.width {
                let pixel = self.pixel(letter, &setting);
                frame.put(row, column, pixel);
            }
        }
        frame
    }

    fn pixel(&mut self, letter: char, s: &Setting) -> Pixel {
        match letter {
            'I' => pixels::with_source(&mut self.random, s),
            'F' if self.random.flag() => pixels::extreme_rgb(&mut self.random, s),
            _ => pixels::within_depth(&mut self.random, s, way_of(letter)),
        }
    }

    pub fn some_frame(&mut self, letter: char, height: u64) -> Frame {
        let kind = self.kind_for(letter);
        let s = settings::good(&mut self.random, kind);
        let width = 1 + self.random.below(5);
        self.frame(letter, s, Size { width, height })
    }

    /// Puts a sample past its depth into the picture.
    pub fn spoil(&mut self, frame: &mut Frame, plane: usize, row: u64, column: u64) {
        let depth = source_depths(&frame.setting, frame.way())[plane];
        let bad = self.random.from_on(1u16 << depth);
        let index = (row * frame.source.stride + column) as usize;
        frame.source.planes[plane][index] = bad;
    }

    pub fn spoil_somewhere(&mut self, frame: &mut Frame) {
        let plane = self.random.below(3) as usize;
        let row = self.random.below(frame.size.height);
        let column = self.random.below(frame.size.width);
        self.spoil(frame, plane, row, column);
    }
}
