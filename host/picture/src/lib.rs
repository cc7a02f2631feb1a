//! Grey pictures in PGM and PNG files, and bitmaps in PBM files: no sample is rounded, and what is written is read back
//! sample by sample.

pub mod bitmap;
#[cfg(test)]
mod chance;
mod other;
mod pgm;
mod png;
mod png_chunks;
mod pnm;

pub use bitmap::Bitmap;
use std::path::Path;

/// More samples than this are not read where a file can claim more of them than it has bytes, so that a header alone
/// cannot ask for all memory.
const MOST_SAMPLES: u64 = 1 << 28;

/// A grey picture, row by row.
#[derive(Clone, Debug, PartialEq)]
pub struct Picture {
    pub width: usize,
    pub height: usize,
    /// The maximum value; no sample is above it.
    pub top: u16,
    pub samples: Vec<u16>,
}

impl Picture {
    /// The number of bits that the maximum value needs.
    pub fn depth(&self) -> usize {
        (u16::BITS - self.top.leading_zeros()) as usize
    }

    /// The largest value of that many bits.
    fn full_top(&self) -> u16 {
        u16::MAX >> self.top.leading_zeros()
    }

    /// Names the first sample above the maximum value, if there is one.
    fn check_range(&self) -> Result<(), String> {
        let Picture { width, top, .. } = *self;
        match self.samples.iter().position(|&s| s > top) {
            None => Ok(()),
            Some(i) => Err(format!(
                "the sample in column {}, row {} (counted from 0) is {}, above the maximum value {top}",
                i % width,
                i / width,
                self.samples[i],
            )),
        }
    }

    /// Its fields are open to all, so that they are tested before a file is made of them.
    fn check(&self) -> Result<(), String> {
        let Picture { width, height, top, .. } = *self;
        check_count(width, height, self.samples.len())?;
        if top == 0 {
            return Err("the maximum value is 0".to_string());
        }
        self.check_range()
    }
}

/// Whether there are as many samples as a width and a height say.
fn check_count(width: usize, height: usize, samples: usize) -> Result<(), String> {
    if width == 0 || height == 0 {
        return Err("the width or the height is 0".to_string());
    }
    if width.checked_mul(height) != Some(samples) {
        return Err(format!("there are {samples} samples where {width} by {height} should be"));
    }
    Ok(())
}

/// Zeros; too many for the machine's memory are an error, not an abort.
fn zeros(count: usize) -> Result<Vec<u8>, String> {
    let mut buffer = Vec::new();
    buffer.try_reserve_exact(count).map_err(|_| format!("no memory for {count} bytes of samples"))?;
    buffer.resize(count, 0);
    Ok(buffer)
}

/// The formats that a picture is written in.
#[derive(Clone, Copy, Debug, PartialEq)]
pub enum Format {
    Pgm,
    PlainPgm,
    Png,
}

impl Format {
    /// The format that a file's ending names: .png, .pgm or .pnm, in either case of letters.
    pub fn of_name(path: &Path) -> Option<Format> {
        match path.extension()?.to_ascii_lowercase().to_str()? {
            "png" => Some(Format::Png),
            "pgm" | "pnm" => Some(Format::Pgm),
            _ => None,
        }
    }

    /// The format of a file that is taken, by what it begins with.
    pub fn of_file(file: &[u8]) -> Option<Format> {
        match file {
            [b'P', b'5', ..] => Some(Format::Pgm),
            [b'P', b'2', ..] => Some(Format::PlainPgm),
            _ => file.starts_with(png_chunks::SIGNATURE).then_some(Format::Png),
        }
    }
}

/// Takes the bytes of a picture's file; what it begins with decides which format it is in. The message says what is
/// wrong and what to do, without the file's name.
pub fn parse(file: &[u8]) -> Result<Picture, String> {
    match Format::of_file(file) {
        Some(Format::Png) => png::parse(file),
        Some(Format::Pgm | Format::PlainPgm) => pgm::parse(file),
        None => Err(other::message(file)),
    }
}

/// What is odd of a picture's file that is taken, if anything, for the user to be told.
pub fn odd(file: &[u8]) -> Option<String> {
    match Format::of_file(file) {
        Some(Format::Pgm) => pgm::odd(file),
        _ => None,
    }
}

/// The bytes of a picture's file.
pub fn format(picture: &Picture, format: Format) -> Result<Vec<u8>, String> {
    picture.check()?;
    match format {
        Format::Pgm => Ok(pgm::format(picture)),
        Format::PlainPgm => Ok(pgm::format_plain(picture)),
        Format::Png => png::format(picture),
    }
}

/// What a picture's file in this format cannot say of it as it is, if anything, for the user to be told.
pub fn lost(picture: &Picture, format: Format) -> Option<String> {
    if format != Format::Png {
        return None;
    }
    let (depth, full) = (picture.depth(), picture.full_top());
    let mut told = Vec::new();
    if png::bits(depth) != depth {
        told.push(format!(
            "PNG has no depth of {depth} bits: the samples are written with {}, their bits repeated, and read back here \
             as they were; another program sees the scaled ones",
            png::bits(depth)
        ));
    }
    if picture.top != full {
        told.push(format!(
            "PNG has no maximum value: the samples are kept, but whoever reads the file takes {full} for the maximum \
             value in place of {}",
            picture.top
        ));
    }
    (!told.is_empty()).then(|| told.join("; ") + "; a PGM file keeps it")
}

#[cfg(test)]
mod tests {
    use super::*;

    fn picture(width: usize, height: usize, top: u16, samples: Vec<u16>) -> Picture {
        Picture { width, height, top, samples }
    }

    #[test]
    fn depth_of_the_maximum_value() {
        let depth = |top| picture(1, 1, top, vec![0]).depth();
        assert_eq!([1, 2, 3, 4, 200, 255, 256, 1000, 1023, 1024].map(depth), [1, 2, 2, 3, 8, 8, 9, 10, 10, 11]);
        assert_eq!(depth(65535), 16);
    }

    #[test]
    fn formats_by_name() {
        let format = |name: &str| Format::of_name(Path::new(name));
        assert_eq!(["a.png", "b/a.PNG", "a.b.Png"].map(format), [Some(Format::Png); 3]);
        assert_eq!(["a.pgm", "a.PNM", "-.pgm"].map(format), [Some(Format::Pgm); 3]);
        assert_eq!(["a", "-", "png", ".png", "a.png.gz", "a.jpg", "a."].map(format), [None; 7]);
    }

    #[test]
    fn the_first_bytes_decide() {
        let small = picture(2, 1, 255, vec![3, 4]);
        for kind in [Format::Pgm, Format::PlainPgm, Format::Png] {
            let file = format(&small, kind).unwrap();
            assert_eq!(parse(&file).unwrap(), small, "{kind:?}");
        }
        assert!(format(&small, Format::Pgm).unwrap().starts_with(b"P5"));
        assert!(format(&small, Format::PlainPgm).unwrap().starts_with(b"P2"));
        assert!(format(&small, Format::Png).unwrap().starts_with(b"\x89PNG"));
    }

    #[test]
    fn what_png_cannot_say_is_told() {
        for top in [1, 3, 15, 255, 65535] {
            assert_eq!(lost(&picture(1, 1, top, vec![0]), Format::Png), None);
        }
        for (top, bits) in [(7, "with 4,"), (31, "with 8,"), (511, "with 16,"), (1023, "with 16,")] {
            let deep = picture(1, 1, top, vec![top]);
            assert_eq!(lost(&deep, Format::Pgm), None);
            let told = lost(&deep, Format::Png).unwrap();
            assert!(told.contains(bits) && !told.contains("maximum"), "{told}");
        }
        for (top, full) in [(2, "takes 3 "), (200, "takes 255 "), (1000, "takes 1023 "), (65534, "takes 65535 ")] {
            let odd = picture(1, 1, top, vec![top]);
            assert_eq!(lost(&odd, Format::Pgm), None);
            assert_eq!(lost(&odd, Format::PlainPgm), None);
            let told = lost(&odd, Format::Png).unwrap();
            assert!(told.contains(full) && told.contains(&format!("in place of {top};")), "{told}");
            assert_eq!(parse(&format(&odd, Format::Png).unwrap()).unwrap().samples, [top]);
        }
    }

    #[test]
    fn no_file_is_made_of_a_picture_that_is_none() {
        let wrong = [
            picture(0, 1, 255, vec![]),
            picture(1, 0, 255, vec![]),
            picture(1, 1, 0, vec![0]),
            picture(2, 2, 255, vec![0; 3]),
            picture(usize::MAX, 2, 255, vec![0; 3]),
            picture(2, 1, 200, vec![0, 201]),
        ];
        for picture in wrong {
            for kind in [Format::Pgm, Format::PlainPgm, Format::Png] {
                assert!(format(&picture, kind).is_err(), "{picture:?}");
            }
        }
    }
}
