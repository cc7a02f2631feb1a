//! The plane of a picture, the calls that write it and read its stream, and the
//! bits that they carry.

use crate::size::Size;
use crate::{accepted, DEPTH};

/// What a header says, the region apart.
#[derive(Clone, Copy)]
pub struct Setting {
    pub kernel: usize,
    pub levels: usize,
    pub size: Size,
}

impl Setting {
    /// Kernel 2, whose filter is the longest, and five levels.
    pub const fn longest(size: Size) -> Setting {
        Setting {
            kernel: 2,
            levels: 5,
            size,
        }
    }

    pub fn transform(&self, samples: &[u16], plane: &mut [i32]) {
        let Setting {
            kernel,
            levels,
            size: Size { w, h },
        } = *self;
        let number = bindings::transform(kernel, levels, DEPTH, w, h, samples, plane);
        accepted(number);
    }
}

/// Plane, mask and stream of one call.
#[derive(Clone, PartialEq)]
pub struct Buffers {
    pub plane: Vec<i32>,
    pub mask: Vec<u8>,
    pub stream: Vec<u8>,
}

impl Buffers {
    pub fn new(samples: usize, total: usize) -> Buffers {
        Buffers {
            plane: vec![0; samples],
            mask: vec![0; samples],
            stream: vec![0; total],
        }
    }

    pub fn copy_from(&mut self, other: &Buffers) {
        self.plane.copy_from_slice(&other.plane);
        self.mask.copy_from_slice(&other.mask);
        self.stream.copy_from_slice(&other.stream);
        std::hint::black_box(self);
    }

    /// The plane of the picture in buffers for its stream, not yet written.
    pub fn unwritten(setting: Setting, numbers: &[u32], samples: &[u16]) -> Buffers {
        let mut buffers = Buffers::new(setting.size.samples(), 0);
        setting.transform(samples, &mut buffers.plane);
        let length = needed(setting, numbers, &mut buffers);
        buffers.stream = vec![0; length];
        buffers
    }

    /// The plane of the picture, its mask and its stream.
    pub fn written(setting: Setting, numbers: &[u32], samples: &[u16]) -> (Buffers, Written) {
        let mut buffers = Buffers::unwritten(setting, numbers, samples);
        let written = write(bindings::write, setting, numbers, &mut buffers);
        accepted(written.number);
        (buffers, written)
    }
}

/// The writer of either side.
pub type Write =
    fn(&[i32], &[u32], usize, usize, usize, usize, usize, &mut [u8], &mut [u8], &mut [u64]) -> u64;

/// What a writer answers.
pub struct Written {
    pub number: u64,
    /// The total length; under refusal 11 the needed one.
    pub length: usize,
    pub mark: usize,
}

pub fn write(by: Write, setting: Setting, numbers: &[u32], buffers: &mut Buffers) -> Written {
    let mut results = [0; 3];
    let number = by(
        &buffers.plane,
        numbers,
        setting.kernel,
        setting.levels,
        DEPTH,
        setting.size.w,
        setting.size.h,
        &mut buffers.mask,
        &mut buffers.stream,
        &mut results,
    );
    let [length, mark, _] = results.map(|result| result as usize);
    Written {
        number,
        length,
        mark,
    }
}

/// The needed length, by a call with an empty buffer for the stream: all of the
/// writer's work except the body. The stream is left aside.
pub fn needed(setting: Setting, numbers: &[u32], buffers: &mut Buffers) -> usize {
    let stream = std::mem::take(&mut buffers.stream);
    let written = write(bindings::write, setting, numbers, buffers);
    assert_eq!(written.number, 11, "an empty buffer is too short");
    buffers.stream = stream;
    written.length
}

/// The number of bit planes of a plane, T.
fn planes(plane: &[i32]) -> usize {
    let largest = plane.iter().map(|c| c.unsigned_abs()).max();
    (u32::BITS - largest.unwrap_or(0).leading_zeros()) as usize
}

/// The bits of a plane's body: T for each coefficient, and a sign for each that is not 0.
pub fn body_bits(plane: &[i32]) -> usize {
    let signs = plane.iter().filter(|&&c| c != 0).count();
    plane.len() * planes(plane) + signs
}

/// Those of the marked coefficients alone.
pub fn marked_bits(plane: &[i32], mask: &[u8]) -> usize {
    let marked = || plane.iter().zip(mask).filter(|(_, &mark)| mark != 0);
    let signs = marked().filter(|(&c, _)| c != 0).count();
    marked().count() * planes(plane) + signs
}

/// Millions of bits a second, of bits and milliseconds.
pub fn megabits(bits: usize, time: f64) -> f64 {
    bits as f64 / time / 1e3
}

/// Reads one stream at any length, always from and into the same buffers, since
/// times depend on where a buffer lies.
pub struct Reader {
    stream: Vec<u8>,
    plane: Vec<i32>,
    mask: Vec<u8>,
}

impl Reader {
    pub fn new(stream: Vec<u8>, samples: usize) -> Reader {
        Reader {
            stream,
            plane: vec![0; samples],
            mask: vec![0; samples],
        }
    }

    /// The length before the body.
    pub fn before_body(&mut self) -> usize {
        self.cut(self.stream.len());
        let mut results = [0; 2];
        accepted(bindings::body(&self.stream, &mut results));
        results[0] as usize
    }

    /// The first bytes as the stream cut to them: docs/FORMAT.md, Cutting.
    fn cut(&mut self, length: usize) {
        let follows = u32::try_from(length - 4).expect("a length of 32 bits");
        self.stream[..4].copy_from_slice(&follows.to_be_bytes());
    }

    /// Reads the stream cut to this length.
    pub fn read(&mut self, length: usize) {
        self.cut(length);
        let (plane, mask) = (&mut self.plane, &mut self.mask);
        let mut results = [0; 139];
        let number = bindings::read(&self.stream[..length], plane, mask, &mut results);
        accepted(number);
    }

    /// Does what a reader does beside the body, by other calls: draws the region
    /// and its mask, and sets the plane to 0.
    pub fn prepare(&mut self, setting: Setting, numbers: &[u32], region: &mut [u8]) {
        let Size { w, h } = setting.size;
        let (kernel, levels) = (setting.kernel, setting.levels);
        accepted(bindings::region(numbers, w, h, region));
        accepted(bindings::mask(kernel, levels, w, h, region, &mut self.mask));
        self.plane.fill(0);
        std::hint::black_box(&mut self.plane);
    }

    /// That reading the stream cut to this length gives what the reference gives.
    pub fn compare(&mut self, length: usize) {
        self.plane.fill(-1);
        self.read(length);
        let mut expected = Buffers::new(self.plane.len(), 0);
        let mut results = [0; 139];
        accepted(reference::read(
            &self.stream[..length],
            &mut expected.plane,
            &mut expected.mask,
            &mut results,
        ));
        assert!(
            self.plane == expected.plane && self.mask == expected.mask,
            "cut to {length} bytes: library and reference differ"
        );
    }
}
