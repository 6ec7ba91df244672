//! Other converters, where they are installed: zimg.

use crate::bench::Bench;
use crate::setting::Setting;

/// Adds the rivals' rows. The lines that it gives say how far each rival's samples are from the box's, or that it isn't there.
#[cfg(not(zimg))]
pub fn add(_bench: &mut Bench, _s: &Setting) -> Vec<String> {
    vec![String::from("zimg was not measured: its header is not installed (Debian package libzimg-dev).")]
}

#[cfg(zimg)]
pub fn add(bench: &mut Bench, s: &Setting) -> Vec<String> {
    with_zimg::add(bench, s)
}

#[cfg(zimg)]
mod with_zimg {
    use crate::bench::{Bench, LARGE};
    use crate::jobs::Work;
    use crate::pictures::{self, Read, Shape, Write};
    use crate::setting::{Setting, Way};
    use std::ffi::c_void;

    #[repr(C)]
    struct Handle([u8; 0]);

    // docs/src/rivals/zimg.c
    extern "C" {
        fn rival_zimg_version(version: *mut u32);
        fn rival_zimg_new(width: u32, height: u32, bytes: i32, any_processor: i32) -> *mut Handle;
        fn rival_zimg_free(handle: *mut Handle);
        fn rival_zimg_convert(handle: *mut Handle, stride: usize, source: *const *const c_void, output: *const *mut c_void) -> i32;
    }

    /// Where a plane of zimg's may start.
    #[derive(Clone, Copy)]
    #[repr(C, align(64))]
    struct Block([u8; 64]);

    struct Zimg {
        handle: *mut Handle,
        bytes: bool,
        source: [Vec<Block>; 3],
        output: [Vec<Block>; 3],
    }

    impl Zimg {
        fn new(bytes: bool, any_processor: bool, source: Read) -> Zimg {
            let handle = unsafe { rival_zimg_new(LARGE.width as u32, LARGE.height as u32, bytes.into(), any_processor.into()) };
            assert!(!handle.is_null(), "zimg has no such conversion");
            let source = source.map(|plane| blocks(plane, bytes));
            let output = [(); 3].map(|_| vec![Block([0xa5; 64]); source[0].len()]);
            Zimg { handle, bytes, source, output }
        }

        fn run(&mut self) {
            let Zimg { handle, bytes, source, output } = self;
            let [a, b, c] = source;
            let [x, y, z] = output;
            let source: [*const c_void; 3] = [a.as_ptr().cast(), b.as_ptr().cast(), c.as_ptr().cast()];
            let output: [*mut c_void; 3] = [x.as_mut_ptr().cast(), y.as_mut_ptr().cast(), z.as_mut_ptr().cast()];
            let stride = if *bytes { LARGE.width } else { 2 * LARGE.width };
            let failed = unsafe { rival_zimg_convert(*handle, stride, source.as_ptr(), output.as_ptr()) };
            assert!(failed == 0, "zimg failed");
        }

        /// Every sample that was written, plane after plane.
        fn samples(&self) -> impl Iterator<Item = u16> + '_ {
            let size = if self.bytes { 1 } else { 2 };
            let all = self.output.iter().flatten();
            all.flat_map(move |block| block.0.chunks(size).map(|b| b.iter().rev().fold(0, |v, &byte| (v << 8) | u16::from(byte))))
        }
    }

    impl Work for Zimg {
        fn prepare(&mut self) {
            self.output.iter_mut().for_each(|plane| plane.fill(Block([0xa5; 64])));
        }

        fn convert(&mut self, _shape: &Shape, _from: Read, _to: Write) {
            self.run();
        }
    }

    impl Drop for Zimg {
        fn drop(&mut self) {
            unsafe { rival_zimg_free(self.handle) }
        }
    }

    /// The samples in whole blocks, each as a byte or as a 16-bit number, lowest byte first.
    fn blocks(plane: &[u16], bytes: bool) -> Vec<Block> {
        let written = |samples: &[u16]| {
            let mut block = Block([0; 64]);
            let size = if bytes { 1 } else { 2 };
            for (to, sample) in block.0.chunks_mut(size).zip(samples) {
                to.copy_from_slice(&sample.to_le_bytes()[..size]);
            }
            block
        };
        plane.chunks(if bytes { 64 } else { 32 }).map(written).collect()
    }

    pub fn add(bench: &mut Bench, s: &Setting) -> Vec<String> {
        let kinds = [
            ("zimg, 16-bit numbers", false, false),
            ("zimg, bytes", true, false),
            ("zimg, 16-bit numbers, no vector instructions of its own", false, true),
        ];
        let mut lines = vec![format!("zimg is version {}.", version())];
        lines.extend(kinds.map(|(name, bytes, any_processor)| add_one(bench, s, name, bytes, any_processor)));
        lines
    }

    fn version() -> String {
        let mut version = [0; 3];
        unsafe { rival_zimg_version(version.as_mut_ptr()) };
        version.map(|number: u32| number.to_string()).join(".")
    }

    fn add_one(bench: &mut Bench, s: &Setting, name: &str, bytes: bool, any_processor: bool) -> String {
        let source = bench.random(LARGE, [8; 3]);
        let ours = bench.answer(s, Way::Forward, LARGE, &source);
        let mut zimg = Zimg::new(bytes, any_processor, pictures::to_read(&source));
        zimg.run();
        let differences = zimg.samples().zip(ours.iter().flatten()).map(|(theirs, &ours)| theirs.abs_diff(ours));
        let (count, most) = differences.fold((0, 0), |(count, most), d| (count + usize::from(d > 0), d.max(most)));
        let ticket = bench.job(LARGE, source, zimg);
        bench.row(name, ticket, None);
        format!("{}: {} of {} samples differ from the box's, by at most {}.", name, count, 3 * LARGE.pixels(), most)
    }
}
