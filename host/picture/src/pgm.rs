//! PGM pictures, raw (P5) and plain (P2), as netpbm reads them: maximum value 1 to 65,535, and every sample as it
//! stands. A library would scale the samples by the maximum value, so they are read here.

use crate::pnm::{Fault, Input, Size};
use crate::Picture;

/// The longest line of a plain file.
const LINE: usize = 70;

/// What stands in front of the samples.
struct Header {
    size: Size,
    top: u16,
}

impl Header {
    /// The bytes that the samples of a raw file take: one or two each.
    fn raw_bytes(&self) -> u64 {
        // Width and height are below 2^31, so that the product is below 2^63.
        self.size.count() * if self.top > 255 { 2 } else { 1 }
    }
}

/// Takes a file that begins with P5 or P2; its first picture is read, whatever stands behind it is not.
pub fn parse(file: &[u8]) -> Result<Picture, String> {
    let mut input = Input::of(file, "PGM picture")?;
    let header = parse_header(&mut input)?;
    let samples = match file.starts_with(b"P2") {
        true => plain_samples(&mut input, &header)?,
        false => raw_samples(input.raw(header.raw_bytes())?, &header),
    };
    // Every sample took at least a byte of the file, so that width and height fit a usize.
    let (width, height) = (header.size.width as usize, header.size.height as usize);
    let picture = Picture { width, height, top: header.top, samples };
    picture.check_range()?;
    Ok(picture)
}

fn parse_header(input: &mut Input) -> Result<Header, String> {
    let size = input.size()?;
    let top = input.named("the maximum value")?;
    match u16::try_from(top) {
        Ok(top) if top > 0 => Ok(Header { size, top }),
        _ => Err(format!("the maximum value {top} is not 1 to 65535")),
    }
}

/// One or two bytes a sample, the high byte first.
fn raw_samples(bytes: &[u8], header: &Header) -> Vec<u16> {
    match header.top > 255 {
        false => bytes.iter().map(|&b| u16::from(b)).collect(),
        true => bytes.chunks_exact(2).map(|b| u16::from_be_bytes([b[0], b[1]])).collect(),
    }
}

/// What is odd of a raw file that is taken.
pub fn odd(file: &[u8]) -> Option<String> {
    let mut input = Input::of(file, "PGM picture").ok()?;
    let header = parse_header(&mut input).ok()?;
    input.odd(file, header.raw_bytes())
}

/// Decimal numbers, each with white space behind it.
fn plain_samples(input: &mut Input, header: &Header) -> Result<Vec<u16>, String> {
    let count = header.size.count();
    // Nothing is reserved for `count`: a header may say more than the file has.
    let mut samples = Vec::new();
    for i in 0..count {
        let what = || header.size.sample(i);
        match input.number() {
            Ok(value) => samples.push(u16::try_from(value).map_err(|_| format!("{} is above 65535", what()))?),
            Err(Fault::End) => {
                return Err(format!(
                    "the picture is cut: {i} of {count} samples are there with white space behind them; copy or make \
                     the file again, and end it with a line end"
                ))
            }
            Err(fault) => return Err(fault.words(&what())),
        }
    }
    Ok(samples)
}

/// The bytes of a P5 file.
pub fn format(picture: &Picture) -> Vec<u8> {
    let mut file = format!("P5\n{} {}\n{}\n", picture.width, picture.height, picture.top).into_bytes();
    if picture.top > 255 {
        file.extend(picture.samples.iter().flat_map(|s| s.to_be_bytes()));
    } else {
        // No sample is above the maximum value.
        file.extend(picture.samples.iter().map(|&s| s as u8));
    }
    file
}

/// The bytes of a P2 file; every row of the picture begins on a line of its own.
pub fn format_plain(picture: &Picture) -> Vec<u8> {
    let mut file = format!("P2\n{} {}\n{}\n", picture.width, picture.height, picture.top);
    for row in picture.samples.chunks(picture.width) {
        let mut line = String::new();
        for sample in row {
            let word = sample.to_string();
            if line.len() + 1 + word.len() > LINE {
                file += &line;
                file.push('\n');
                line.clear();
            }
            if !line.is_empty() {
                line.push(' ');
            }
            line += &word;
        }
        file += &line;
        file.push('\n');
    }
    file.into_bytes()
}

#[cfg(test)]
mod tests {
    use super::*;
    use crate::chance::changed;

    fn refused(file: &[u8], word: &str) {
        let message = parse(file).expect_err("should be turned back");
        assert!(message.contains(word), "{message}");
    }

    #[test]
    fn raw_eight_bits() {
        let picture = parse(b"P5\n2 2\n255\n\x0a\x07\x04\xff").unwrap();
        assert_eq!((picture.width, picture.height, picture.top), (2, 2, 255));
        assert_eq!(picture.samples, [10, 7, 4, 255]);
        assert_eq!(picture.depth(), 8);
    }

    #[test]
    fn raw_sixteen_bits_high_byte_first() {
        let picture = parse(b"P5 2 1 1023 \x03\xff\x01\x02").unwrap();
        assert_eq!(picture.samples, [1023, 258]);
        assert_eq!(picture.depth(), 10);
    }

    #[test]
    fn the_first_sample_may_look_like_white_space_or_a_comment() {
        assert_eq!(parse(b"P5 2 1 255\n\n#").unwrap().samples, [10, 35]);
        assert_eq!(parse(b"P5 1 1 255\r\n").unwrap().samples, [10]);
    }

    #[test]
    fn plain() {
        let picture = parse(b"P2\n3 1\n15\n1 2\r\n\t15\n").unwrap();
        assert_eq!(picture.samples, [1, 2, 15]);
        assert_eq!(picture.depth(), 4);
    }

    #[test]
    fn comments_in_the_header_and_between_plain_samples() {
        let picture = parse(b"P5# made by hand\n#\n# 9 9\n2 # width\n1#height\n255# top\n\x01\x02").unwrap();
        assert_eq!((picture.width, picture.height), (2, 1));
        assert_eq!(picture.samples, [1, 2]);
        assert_eq!(parse(b"P2 #a\n2 1 #b\r3 #c\n2#d\n#e\n 1#f\n").unwrap().samples, [2, 1]);
    }

    #[test]
    fn a_maximum_value_is_kept_and_scales_nothing() {
        for (file, top) in [(&b"P5 3 1 200 \x00\x64\xc8"[..], 200), (b"P2 3 1 1000 0 100 200 ", 1000)] {
            let picture = parse(file).unwrap();
            assert_eq!(picture.top, top);
            assert_eq!(picture.samples, [0, 100, 200]);
            assert_eq!(parse(&format(&picture)).unwrap(), picture);
        }
    }

    #[test]
    fn what_was_formatted_is_parsed_again() {
        for top in [1, 255, 256, 1023, 65535] {
            let picture = Picture { width: 3, height: 2, top, samples: vec![0, 1, 0, top, top / 2, 1] };
            assert_eq!(parse(&format(&picture)).unwrap(), picture);
            assert_eq!(parse(&format_plain(&picture)).unwrap(), picture);
        }
    }

    #[test]
    fn plain_lines_have_at_most_70_characters() {
        let picture = Picture { width: 13, height: 2, top: 65535, samples: vec![65535; 26] };
        let text = String::from_utf8(format_plain(&picture)).unwrap();
        // Eleven numbers of five digits and ten blanks are 65 characters; a twelfth would make 71.
        let lengths: Vec<usize> = text.lines().skip(3).map(str::len).collect();
        assert_eq!(lengths, [65, 11, 65, 11]);
        let picture = Picture { width: 36, height: 1, top: 9, samples: vec![7; 36] };
        let text = String::from_utf8(format_plain(&picture)).unwrap();
        assert_eq!(text.lines().skip(3).map(str::len).collect::<Vec<_>>(), [69, 1]);
    }

    #[test]
    fn not_a_pgm() {
        for file in [&b"P52 2 255 ...."[..], b"P2x"] {
            refused(file, "not a PGM");
        }
    }

    #[test]
    fn every_cut_is_turned_back() {
        for file in [&b"P5 # c\n2 2\n1023\n\x00\x01\x00\x02\x00\x03\x00\x04"[..], b"P2\n2 2\n255\n1 2 3 14\n"] {
            assert!(parse(file).is_ok());
            for length in 2..file.len() {
                refused(&file[..length], "cut");
            }
        }
    }

    #[test]
    fn a_header_with_cr_lf_is_told_where_a_byte_is_left() {
        assert!(odd(b"P5\r\n2 1\r\n255\r\nab").is_some());
        assert!(odd(b"P5\r\n2 1\r\n1023\r\nabcd").is_some());
        for file in [&b"P5\r\n2 1\r\n255\r\na"[..], b"P5\n2 1\n255\n\nab", b"P5 2 1 255\rab\n", b"P5 2 1", b"P5"] {
            assert_eq!(odd(file), None);
        }
    }

    #[test]
    fn the_first_picture_of_a_file_is_read() {
        assert_eq!(parse(b"P5 1 1 255 aP5 1 1 255 b").unwrap().samples, [97]);
        assert_eq!(parse(b"P5 1 1 255 a\n").unwrap().samples, [97]);
        assert_eq!(parse(b"P2 1 1 255 7 P2 1 1 255 8 ").unwrap().samples, [7]);
        assert_eq!(parse(b"P2 1 1 255 7 8 9 and so on").unwrap().samples, [7]);
    }

    #[test]
    fn bad_numbers() {
        refused(b"P5 -1 1 255 a", "the width is not a number");
        refused(b"P5 1 1x 255 a", "the height is not a number");
        refused(b"P5 1 1 255\x0ba", "the maximum value is not a number");
        refused(b"P5 0 1 255 ", "is 0");
        refused(b"P5 1 1 0 a", "not 1 to 65535");
        refused(b"P5 1 1 65536 a", "not 1 to 65535");
        refused(
            b"P2 2 1 255 1 256 ",
            "the sample in column 1, row 0 (counted from 0) is 256, above the maximum value 255",
        );
        refused(b"P2 1 2 255 1 99999 ", "the sample in column 0, row 1 (counted from 0) is above 65535");
        refused(b"P2 1 2 255 1 x ", "the sample in column 0, row 1 (counted from 0) is not a number");
        refused(b"P5 2 1 200 \x01\xc9", "column 1, row 0 (counted from 0) is 201, above the maximum value 200");
    }

    #[test]
    fn huge_numbers_take_no_memory() {
        refused(b"P5 99999999999999999999 1 255 a", "the width is too large");
        refused(b"P5 2147483648 1 255 a", "the width is too large");
        refused(b"P5 2147483647 2147483647 65535 a", "1 of 9223372028264841218 bytes");
        refused(b"P2 2147483647 2147483647 65535 1 2 ", "2 of");
    }

    #[test]
    fn whatever_is_changed_is_parsed_or_turned_back() {
        for file in [&b"P5 # c\n3 2\n255\n\x00\x01\x02\x03\x04\x05"[..], b"P2\n3 2\n#\n1023\n1 2 3\n1023 5 6\n"] {
            changed(file, |changed| {
                if let Ok(picture) = parse(changed) {
                    assert_eq!(picture.samples.len(), picture.width * picture.height);
                    assert!(picture.samples.iter().all(|&s| s <= picture.top));
                }
            });
        }
    }
}
