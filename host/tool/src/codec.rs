//! The codec, as the static library offers it (host/include/dhiirqobaal.h, host/bindings), with buffers of the right
//! sizes.
//!
//! The library tests everything it is given, so nothing is tested here a second time: a wrong number goes in, and the
//! refusal comes out.

use crate::causes;
use crate::failure::Failure;
use crate::rectangles::{self, Rectangle};
use crate::words;
use picture::{Bitmap, Picture};

const HEADER_RESULTS: usize = 135;
const READ_RESULTS: usize = 139;

/// The kernels' names, by their numbers.
pub const KERNELS: [&str; 4] = ["s", "s+p", "tt", "5/3"];

/// What a picture is encoded under, and what a stream's header says.
#[derive(Clone, Debug, PartialEq)]
pub struct Setting {
    pub kernel: usize,
    pub levels: usize,
    pub depth: usize,
    pub width: usize,
    pub height: usize,
    pub rectangles: Vec<Rectangle>,
}

impl Setting {
    /// How many samples the picture has, and how many coefficients. The setting is one that was not refused.
    pub fn area(&self) -> usize {
        self.width * self.height
    }

    /// Width and height of the picture at a level: each side halved and rounded up, so many times over. A level above J,
    /// which the codec refuses (17) before it looks at any buffer, gets those of level J. The setting is one that was
    /// not refused.
    pub fn size(&self, level: usize) -> (usize, usize) {
        let block = 1 << level.min(self.levels);
        (self.width.div_ceil(block), self.height.div_ceil(block))
    }
}

/// How bright a region is: its number of samples, their sum, and the sum's quotient and remainder by the number.
pub struct Figures {
    pub number: u64,
    pub sum: u64,
    pub quotient: u64,
    pub remainder: u64,
}

/// A stream that was written.
pub struct Written {
    pub bytes: Vec<u8>,
    pub region_mark: usize,
    pub marks: usize,
}

/// What arrived of a stream, as a stream cut to it: its header is accepted, its body is not yet read.
pub struct Stream {
    pub bytes: Vec<u8>,
    /// The length that was sent.
    pub sent: usize,
    pub setting: Setting,
    pub planes: usize,
}

/// What a stream holds.
pub struct Reading {
    pub marks: usize,
    /// Whether every bit of the marked part arrived.
    pub whole: bool,
    pub region_mark: usize,
    /// Planes of the unmarked coefficients that did not wholly arrive.
    pub missing: usize,
}

impl Reading {
    /// The first of the reader's result numbers.
    fn of(results: &[u64; READ_RESULTS]) -> Reading {
        let [marks, whole, region_mark, missing] = std::array::from_fn(|i| results[i] as usize);
        Reading { marks, whole: whole == 1, region_mark, missing }
    }

    /// Whether every bit of the picture arrived.
    pub fn complete(&self) -> bool {
        self.whole && self.missing == 0
    }
}

/// A buffer of zeros; a size that the machine has no memory for is an error, not an abort.
fn zeros<T: Clone + Default>(count: usize) -> Result<Vec<T>, Failure> {
    let mut buffer = Vec::new();
    if buffer.try_reserve_exact(count).is_err() {
        return Err(Failure::input_output(format!("no memory for {} numbers", words::size(count))));
    }
    buffer.resize(count, T::default());
    Ok(buffer)
}

fn accepted(number: u64, cause: impl FnOnce() -> String) -> Result<(), Failure> {
    match number {
        0 => Ok(()),
        _ => Err(Failure::refused(number, &cause())),
    }
}

/// The refusals of encoding that need no work: of 1, 2, 3, 4, 7 and 8 the first that holds, or 0. The writer, lent
/// empty buffers, answers it; behind them all it answers 5, since the buffers are empty.
pub fn refusal(setting: &Setting) -> u64 {
    match write_once(setting, &[], &mut [], &mut []) {
        (5, _) => 0,
        (number, _) => number,
    }
}

/// Which of a picture's samples the rectangles cover: 1 inside, else 0.
pub fn region(rectangles: &[Rectangle], width: usize, height: usize) -> Result<Vec<u8>, Failure> {
    let mut region = zeros::<u8>(width * height)?;
    let number = bindings::region(&rectangles::numbers(rectangles), width, height, &mut region);
    accepted(number, || causes::of_region(number, rectangles, width, height))?;
    Ok(region)
}

/// The mask of a region.
pub fn mask(kernel: usize, levels: usize, region: &Bitmap) -> Result<Bitmap, Failure> {
    let Bitmap { width, height, .. } = *region;
    let mut mask = zeros::<u8>(region.samples.len())?;
    let number = bindings::mask(kernel, levels, width, height, &region.samples, &mut mask);
    accepted(number, || causes::of_mask(number, kernel, levels, region))?;
    Ok(Bitmap { width, height, samples: mask })
}

/// Two regions, or two masks, joined. `sizes` says which sizes they have, where these differ: that is refused (5).
pub fn join(first: &Bitmap, second: &Bitmap, sizes: impl FnOnce() -> String) -> Result<Bitmap, Failure> {
    let Bitmap { width, height, .. } = *first;
    let mut joined = zeros::<u8>(first.samples.len())?;
    let number = bindings::join(width, height, &first.samples, fitting(second, width, height), &mut joined);
    accepted(number, || if number == 5 { sizes() } else { causes::of_region(number, &[], width, height) })?;
    Ok(Bitmap { width, height, samples: joined })
}

/// The bytes of a bitmap that should have a size. The codec knows lengths, and 2 by 3 samples are as long as 3 by 2:
/// what is of another size goes in as nothing.
fn fitting(bitmap: &Bitmap, width: usize, height: usize) -> &[u8] {
    match (bitmap.width, bitmap.height) == (width, height) {
        true => &bitmap.samples,
        false => &[],
    }
}

/// How bright a region of a picture is. `cause` says why it is refused with a number.
pub fn brightness(picture: &Picture, region: &Bitmap, cause: impl FnOnce(u64) -> String) -> Result<Figures, Failure> {
    let Picture { width, height, .. } = *picture;
    let mut results = [0u64; 4];
    let number = bindings::brightness(width, height, &picture.samples, fitting(region, width, height), &mut results);
    accepted(number, || cause(number))?;
    let [number, sum, quotient, remainder] = results;
    Ok(Figures { number, sum, quotient, remainder })
}

/// The coefficients of a picture, under a setting that was not refused. `large` names the sample that is above 2^D - 1,
/// where one is: that is refused (6).
pub fn transform(setting: &Setting, samples: &[u16], large: Option<String>) -> Result<Vec<i32>, Failure> {
    let mut plane = zeros::<i32>(setting.area())?;
    let Setting { kernel, levels, depth, width, height, .. } = *setting;
    let number = bindings::transform(kernel, levels, depth, width, height, samples, &mut plane);
    accepted(number, || large.unwrap_or_else(|| causes::of_setting(number, setting)))?;
    Ok(plane)
}

/// The stream of a plane.
pub fn write(setting: &Setting, plane: &[i32]) -> Result<Written, Failure> {
    let mut mask = zeros::<u8>(plane.len())?;
    // For an empty buffer the writer says how long the stream is; under any other refusal it says 0, and the second
    // call meets that refusal again.
    let (_, [needed, ..]) = write_once(setting, plane, &mut mask, &mut []);
    let mut bytes = zeros::<u8>(needed as usize)?;
    let (number, [_, region_mark, marks]) = write_once(setting, plane, &mut mask, &mut bytes);
    accepted(number, || causes::of_setting(number, setting))?;
    Ok(Written { bytes, region_mark: region_mark as usize, marks: marks as usize })
}

fn write_once(setting: &Setting, plane: &[i32], mask: &mut [u8], stream: &mut [u8]) -> (u64, [u64; 3]) {
    let mut results = [0u64; 3];
    let Setting { kernel, levels, depth, width, height, .. } = *setting;
    let numbers = rectangles::numbers(&setting.rectangles);
    let number = bindings::write(plane, &numbers, kernel, levels, depth, width, height, mask, stream, &mut results);
    (number, results)
}

impl Stream {
    /// Takes the bytes of a stream's file. Where the call broke off, the stream is what arrived of it.
    pub fn of(mut bytes: Vec<u8>) -> Result<Stream, Failure> {
        let mut sent = [0u64; 1];
        let number = bindings::arrived(&mut bytes, &mut sent);
        accepted(number, || causes::of_stream(number, &bytes))?;
        let mut results = [0u64; HEADER_RESULTS];
        let number = bindings::header(&bytes, &mut results);
        accepted(number, || causes::of_stream(number, &bytes))?;
        let [kernel, levels, depth, width, height, planes, count] = std::array::from_fn(|i| results[i] as usize);
        let rectangles = rectangles::of_numbers(results[7..].iter().take(4 * count).copied());
        let setting = Setting { kernel, levels, depth, width, height, rectangles };
        Ok(Stream { bytes, sent: sent[0] as usize, setting, planes })
    }

    /// Reads the stream, whole or cut.
    pub fn read(&self) -> Result<Reading, Failure> {
        let (number, reading) = self.try_read()?;
        accepted(number, || self.cause(number))?;
        Ok(reading)
    }

    fn try_read(&self) -> Result<(u64, Reading), Failure> {
        let (mut plane, mut mask) = self.buffers()?;
        let mut results = [0u64; READ_RESULTS];
        let number = bindings::read(&self.bytes, &mut plane, &mut mask, &mut results);
        Ok((number, Reading::of(&results)))
    }

    /// Reads the stream, whole or cut, and shows it at a level: 0, the full picture, to J.
    pub fn show(&self, level: usize) -> Result<(Reading, Picture), Failure> {
        let Stream { bytes, setting, .. } = self;
        let (width, height) = setting.size(level);
        let (mut plane, mut mask) = self.buffers()?;
        let mut undone = zeros::<i32>(width * height)?;
        let mut shown = zeros::<u16>(width * height)?;
        let mut results = [0u64; READ_RESULTS];
        let number = bindings::show_stream(bytes, level, &mut plane, &mut mask, &mut undone, &mut shown, &mut results);
        accepted(number, || match number {
            17 => causes::of_level(level, setting.levels),
            _ => self.cause(number),
        })?;
        // The depth is 1 to 10 in a stream that was read.
        let top = (1u16 << setting.depth) - 1;
        Ok((Reading::of(&results), Picture { width, height, top, samples: shown }))
    }

    /// Buffers for its plane and its mask.
    fn buffers(&self) -> Result<(Vec<i32>, Vec<u8>), Failure> {
        Ok((zeros(self.setting.area())?, zeros(self.setting.area())?))
    }

    fn cause(&self, number: u64) -> String {
        match number {
            16 => causes::of_filling(self.has_further_byte()),
            _ => causes::of_stream(number, &self.bytes),
        }
    }

    /// Whether the stream has all of its bits without its last byte too.
    fn has_further_byte(&self) -> bool {
        let shorter = self.bytes.split_last().map(|(_, rest)| Stream::of(rest.to_vec()).and_then(|s| s.try_read()));
        !matches!(shorter, Some(Ok((0, reading))) if !reading.complete())
    }

    /// The bytes of the stream cut to a wanted length; `cause` says why a length is refused (15).
    pub fn cut(&self, wanted: usize, cause: impl FnOnce() -> String) -> Result<Vec<u8>, Failure> {
        let (mut plane, mut mask) = self.buffers()?;
        // A wanted length above the stream's is refused (15) before the room is asked for (11).
        let mut out = zeros::<u8>(wanted.min(self.bytes.len()))?;
        let mut results = [0u64; 1];
        let number = bindings::cut(&self.bytes, wanted, &mut plane, &mut mask, &mut out, &mut results);
        accepted(number, || if number == 15 { cause() } else { self.cause(number) })?;
        Ok(out)
    }

    /// Where the body begins in the stream, and its length.
    pub fn body(&self) -> Result<(usize, usize), Failure> {
        let mut results = [0u64; 2];
        let number = bindings::body(&self.bytes, &mut results);
        accepted(number, || causes::of_stream(number, &self.bytes))?;
        Ok((results[0] as usize, results[1] as usize))
    }
}

#[cfg(test)]
mod tests {
    use super::*;

    fn setting(levels: usize, width: usize, height: usize) -> Setting {
        Setting { kernel: 0, levels, depth: 8, width, height, rectangles: Vec::new() }
    }

    #[test]
    fn sizes_of_the_levels() {
        let panel = setting(3, 1366, 768);
        assert_eq!([0, 1, 2, 3].map(|level| panel.size(level)), [(1366, 768), (683, 384), (342, 192), (171, 96)]);
        assert_eq!([4, usize::MAX].map(|level| panel.size(level)), [(171, 96); 2]);
    }

    #[test]
    fn a_side_is_halved_and_rounded_up_so_many_times_over() {
        for side in 1..=4096 {
            let mut halved = side;
            for level in 0..=5 {
                assert_eq!(setting(5, side, 1).size(level), (halved, 1));
                halved = halved / 2 + halved % 2;
            }
        }
    }
}
