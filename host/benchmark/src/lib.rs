//! What the programs of the benchmark and the comparison share: the picture, the
//! sizes and regions, the calls on streams and the timing.

pub mod size;
pub mod stream;
pub mod timing;

use size::Size;

/// The bits of a sample.
pub const DEPTH: usize = 8;

/// A slope with edges and some noise, as a panel has.
pub fn picture(w: usize, h: usize) -> Vec<u16> {
    let mut noise: u64 = 1;
    let mut samples = Vec::with_capacity(w * h);
    for y in 0..h {
        for x in 0..w {
            noise ^= noise << 13;
            noise ^= noise >> 7;
            noise ^= noise << 17;
            let slope = (3 * x + 5 * y) / 64 % 160;
            let lamp = if (x / 96 + y / 64) % 5 == 0 { 80 } else { 0 };
            samples.push((slope + lamp + noise as usize % 8) as u16);
        }
    }
    samples
}

/// The region of rectangles, by the library.
pub fn region_of(size: Size, numbers: &[u32]) -> Vec<u8> {
    let mut region = vec![0; size.samples()];
    accepted(bindings::region(numbers, size.w, size.h, &mut region));
    region
}

/// That a call answered 0.
pub fn accepted(number: u64) {
    assert_eq!(number, 0, "the arguments are accepted");
}
