//! Bitmaps in PBM files, raw (P4) and plain (P1), as netpbm reads them, and written raw: regions and masks, in which 1,
//! shown black, is inside.

use crate::other;
use crate::pnm::{Input, Size};
use crate::{check_count, zeros, MOST_SAMPLES};

/// A bitmap, row by row.
#[derive(Clone, Debug, PartialEq)]
pub struct Bitmap {
    pub width: usize,
    pub height: usize,
    /// 1 inside, 0 outside.
    pub samples: Vec<u8>,
}

impl Bitmap {
    /// How many samples are inside.
    pub fn inside(&self) -> usize {
        self.samples.iter().filter(|&&sample| sample == 1).count()
    }

    /// Its fields are open to all, so that they are tested before a file is made of them.
    fn check(&self) -> Result<(), String> {
        check_count(self.width, self.height, self.samples.len())?;
        match self.samples.iter().find(|&&sample| sample > 1) {
            None => Ok(()),
            Some(sample) => Err(format!("a sample of the bitmap is {sample}, not 0 or 1")),
        }
    }
}

/// Takes the bytes of a bitmap's file; its first bitmap is read, whatever stands behind it is not. The message says
/// what is wrong and what to do, without the file's name.
pub fn parse(file: &[u8]) -> Result<Bitmap, String> {
    let plain = match file {
        [b'P', b'4', ..] => false,
        [b'P', b'1', ..] => true,
        _ => return Err(other::bitmap_message(file)),
    };
    let mut input = Input::of(file, "PBM bitmap")?;
    let size = parse_size(&mut input)?;
    // No more than `MOST_SAMPLES` of them, so that width and height fit a usize.
    let (width, height) = (size.width as usize, size.height as usize);
    let samples = match plain {
        true => plain_samples(&mut input, size)?,
        false => unpacked(input.raw(raw_bytes(size))?, width, height)?,
    };
    Ok(Bitmap { width, height, samples })
}

/// A raw file has eight samples in a byte, so that a header asks for more memory than the file takes.
fn parse_size(input: &mut Input) -> Result<Size, String> {
    let size = input.size()?;
    if size.count() > MOST_SAMPLES {
        return Err(format!(
            "the bitmap has {} by {} samples, more than the {MOST_SAMPLES} that are read: 'pamcut' (netpbm) takes a \
             part of it",
            size.width, size.height
        ));
    }
    Ok(size)
}

/// The bytes that the rows of a raw file take: each begins at a whole byte.
fn raw_bytes(size: Size) -> u64 {
    u64::from(size.width.div_ceil(8)) * u64::from(size.height)
}

/// What is odd of a bitmap's file that is taken, if anything, for the user to be told.
pub fn odd(file: &[u8]) -> Option<String> {
    if !file.starts_with(b"P4") {
        return None;
    }
    let mut input = Input::of(file, "PBM bitmap").ok()?;
    let size = parse_size(&mut input).ok()?;
    input.odd(file, raw_bytes(size))
}

/// The samples of rows that begin at whole bytes, the highest bit of a byte first. What fills a row's last byte up may
/// be anything.
fn unpacked(bytes: &[u8], width: usize, height: usize) -> Result<Vec<u8>, String> {
    let mut samples = zeros(width * height)?;
    for (row, packed) in samples.chunks_mut(width).zip(bytes.chunks(width.div_ceil(8))) {
        for (x, sample) in row.iter_mut().enumerate() {
            *sample = (packed[x / 8] >> (7 - x % 8)) & 1;
        }
    }
    Ok(samples)
}

/// What `unpacked` takes, filled up with 0.
fn packed(samples: &[u8], width: usize) -> Vec<u8> {
    let byte = |part: &[u8]| part.iter().zip(1..).fold(0, |byte, (&sample, i)| byte | (sample << (8 - i)));
    samples.chunks(width).flat_map(|row| row.chunks(8).map(byte)).collect()
}

/// One digit a sample, with white space and comments anywhere between them, or with none.
fn plain_samples(input: &mut Input, size: Size) -> Result<Vec<u8>, String> {
    let count = size.count();
    // Nothing is reserved for `count`: a header may say more than the file has.
    let mut samples = Vec::new();
    for i in 0..count {
        match input.visible() {
            Some(digit @ (b'0' | b'1')) => samples.push(digit - b'0'),
            Some(other) => {
                return Err(format!("{} is '{}', not 0 or 1", size.sample(i), other.escape_ascii()));
            }
            None => {
                return Err(format!(
                    "the picture is cut: {i} of {count} samples are there; copy or make the file again"
                ))
            }
        }
    }
    Ok(samples)
}

/// The bytes of a P4 file.
pub fn format(bitmap: &Bitmap) -> Result<Vec<u8>, String> {
    bitmap.check()?;
    let mut file = format!("P4\n{} {}\n", bitmap.width, bitmap.height).into_bytes();
    file.extend(packed(&bitmap.samples, bitmap.width));
    Ok(file)
}

#[cfg(test)]
mod tests;
