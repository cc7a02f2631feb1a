//! Why the codec refused, in words: which number, rectangle, sample or length it was, and what to do next.

use crate::cable::Cable;
use crate::codec::{Setting, Stream};
use crate::failure::meaning;
use crate::rectangles::{self, Rectangle};
use crate::report;
use crate::words;
use picture::{Bitmap, Format, Picture};

const MAX_DEPTH: usize = 10;

/// The largest value of a depth.
pub fn top(depth: usize) -> u64 {
    (1u64 << depth.min(63)) - 1
}

/// What of a setting was refused.
pub fn of_setting(number: u64, setting: &Setting) -> String {
    let Setting { kernel, levels, depth, width, height, rectangles } = setting;
    let culprit = match number {
        1 => format!("it is {kernel}"),
        2 => format!("they are {levels}"),
        3 => format!("it is {depth}"),
        5 => format!("{width} by {height} samples are {} elements", words::grouped(*width as u64 * *height as u64)),
        _ => return region_words(number, rectangles, *width, *height),
    };
    format!("{} ({culprit})", meaning(number))
}

/// What of some rectangles, or of the size of what they lie in, was refused, and what to do.
pub fn of_region(number: u64, rectangles: &[Rectangle], width: usize, height: usize) -> String {
    region_words(number, rectangles, width, height) + remedy(number)
}

/// The same without what to do.
fn region_words(number: u64, rectangles: &[Rectangle], width: usize, height: usize) -> String {
    let culprit = match number {
        4 => Some(format!("it is {} by {}", words::size(width), words::size(height))),
        7 => Some(format!("there are {}", rectangles.len())),
        8 => bad_rectangle(rectangles, width as u64, height as u64),
        _ => None,
    };
    culprit.map_or(meaning(number).to_string(), |culprit| format!("{} ({culprit})", meaning(number)))
}

/// The first rectangle that is refused, and what is wrong with it.
fn bad_rectangle(rectangles: &[Rectangle], width: u64, height: u64) -> Option<String> {
    rectangles.iter().enumerate().find_map(|(i, r)| {
        let fault = if r.width == 0 {
            "it is empty, its width is 0".to_string()
        } else if r.height == 0 {
            "it is empty, its height is 0".to_string()
        } else if r.x.saturating_add(r.width) > width {
            format!("it ends beyond the right edge of the picture, {width} by {height}")
        } else if r.y.saturating_add(r.height) > height {
            format!("it ends beyond the lower edge of the picture, {width} by {height}")
        } else {
            return None;
        };
        Some(format!("rectangle {} of {}, {r}: {fault}", i + 1, rectangles.len()))
    })
}

/// What to do about a number, a size or rectangles that were refused.
fn remedy(number: u64) -> &'static str {
    match number {
        1 => "; --kernel takes s, s+p, tt or 5/3",
        2 => "; --levels takes 1 to 5",
        4 => "; 'pamcut' (netpbm) takes a part of it",
        7 => "; one rectangle may go around several of them",
        8 => "; a rectangle is x,y,w,h or WxH+X+Y, and lies inside the picture",
        _ => "",
    }
}

/// What of a kernel, levels and a region was refused, and what to do.
pub fn of_mask(number: u64, kernel: usize, levels: usize, region: &Bitmap) -> String {
    let Bitmap { width, height, .. } = *region;
    // A bitmap has one bit a sample.
    let setting = Setting { kernel, levels, depth: 1, width, height, rectangles: Vec::new() };
    of_setting(number, &setting) + remedy(number)
}

/// How a bitmap is made to fit.
const FIT: &str = "'pamcut' cuts samples off, 'pnmpad -white' adds some outside (netpbm)";

/// Which sizes differ of two bitmaps that should be joined (5), and what to do; `name` is the second one's.
pub fn of_sizes(first: &Bitmap, second: &Bitmap, name: &str) -> String {
    format!(
        "it has {} samples and {name} has {}, but bitmaps of one size are joined; draw both at the size of the \
         picture, or fit one of them: {FIT}",
        report::extent((first.width, first.height)),
        report::extent((second.width, second.height))
    )
}

/// Why a bitmap's region of a picture was not measured, and what to do; `name` is the bitmap's.
pub fn of_brightness(number: u64, picture: &Picture, region: &Bitmap, name: &str) -> String {
    let Picture { width, height, .. } = *picture;
    match number {
        5 => format!(
            "it has {} samples and {name} has {}, but a region has the size of its picture; draw it at that size, or \
             fit it: {FIT}",
            report::extent((width, height)),
            report::extent((region.width, region.height))
        ),
        19 => format!("{} (no sample of {name} is black); draw black what should be measured", meaning(19)),
        _ => of_region(number, &[], width, height),
    }
}

/// What of a picture was refused before any work, and what to do next; `format` is that of its file, `given` the depth of
/// the command line.
pub fn of_picture(number: u64, setting: &Setting, picture: &Picture, format: Format, given: Option<usize>) -> String {
    let words = of_setting(number, setting);
    let advice = match (number, given) {
        (3, None) => return too_deep(picture, format),
        (3, Some(_)) if picture.depth() <= MAX_DEPTH => {
            format!("without --depth it is the picture's own, {}", picture.depth())
        }
        (3, Some(_)) => "--depth takes 1 to 10".to_string(),
        (4, _) => {
            format!("{} makes it smaller, 'pamcut' takes a part of it", netpbm(format, "pamscale -xysize 4096 4096"))
        }
        _ => return words + remedy(number),
    };
    format!("{words}; {advice}")
}

fn too_deep(picture: &Picture, format: Format) -> String {
    format!(
        "{} (the maximum value {} has {} bits); {}{}",
        meaning(3),
        words::grouped(picture.top.into()),
        picture.depth(),
        make_it_fit(format),
        taken_as_it_is(picture)
    )
}

/// A command of netpbm that makes a PGM file of a file of some format.
fn netpbm(format: Format, command: &str) -> String {
    match format {
        Format::Png => format!("'pngtopnm IN | {command} > OUT.pgm' (netpbm)"),
        Format::Pgm | Format::PlainPgm => format!("'{command} IN > OUT.pgm' (netpbm)"),
    }
}

fn make_it_fit(format: Format) -> String {
    format!("{} makes it fit", netpbm(format, "pamdepth 1023"))
}

fn largest(picture: &Picture) -> u16 {
    picture.samples.iter().copied().max().unwrap_or(0)
}

/// How many bits a value has.
fn bits(value: u16) -> usize {
    (u16::BITS - value.leading_zeros()).max(1) as usize
}

fn taken_as_it_is(picture: &Picture) -> &'static str {
    match bits(largest(picture)) > MAX_DEPTH {
        true => "",
        false => "; no sample is above 1,023, so that --depth 10 takes it as it is",
    }
}

/// The first sample that is above the largest value of a depth, and the depth that would do.
pub fn large_sample(picture: &Picture, format: Format, depth: usize) -> Option<String> {
    let place = picture.samples.iter().position(|&sample| u64::from(sample) > top(depth))?;
    let advice = match bits(largest(picture)) {
        needed if needed > MAX_DEPTH => make_it_fit(format),
        needed => format!("--depth {needed} takes it"),
    };
    Some(format!(
        "{}: the one in column {}, row {} (counted from 0) is {}, the largest value at depth {depth} is {}; {advice}",
        meaning(6),
        place % picture.width,
        place / picture.width,
        picture.samples[place],
        top(depth)
    ))
}

/// What to do with a file that was refused as a stream, where its first bytes tell it.
pub fn advice(file: &[u8]) -> &'static str {
    match file {
        [b'P', b'2' | b'5', ..] | [0x89, b'P', b'N', b'G', ..] => {
            "; the file begins like a picture, of which 'encode' makes a stream"
        }
        [b'P', b'1' | b'4', ..] => "; the file begins like a bitmap, which 'mask' and 'join' take",
        _ => "",
    }
}

/// What of a stream was refused, and what to do.
pub fn of_stream(number: u64, stream: &[u8]) -> String {
    let cause = match (number, claimed(stream)) {
        (12, _) => return of_length(stream),
        (13, _) => format!("{} (byte 4 is {})", meaning(13), stream[4]),
        (14, _) => format!("{} (byte 13 is {})", meaning(14), stream[13]),
        (1..=8, Some(setting)) => of_setting(number, &setting),
        _ => meaning(number).to_string(),
    };
    format!("{cause}; it is not a stream of this format, or was changed on the way: receive it again")
}

/// Which of the causes of 16 it was.
pub fn of_filling(further: bool) -> String {
    let cause = match further {
        true => "there is a further byte",
        false => "a filling bit is not 0",
    };
    format!("behind the complete body {cause}; the stream was changed on the way: receive it again")
}

/// Which level was refused (17), and which there are.
pub fn of_level(level: usize, levels: usize) -> String {
    format!("{} (r is {level}); its J is {levels}: --level takes 0 to {levels}", meaning(17))
}

/// The setting that a header claims, for messages: under a refusal the codec answers no numbers. A header that was
/// refused for its content has its 14 + 8k bytes.
fn claimed(stream: &[u8]) -> Option<Setting> {
    let fixed: &[u8; 14] = stream.first_chunk()?;
    let pair = |pair: &[u8]| u64::from(u16::from_be_bytes([pair[0], pair[1]]));
    let numbers = stream[14..].chunks_exact(2).take(4 * usize::from(fixed[12])).map(pair);
    Some(Setting {
        kernel: fixed[5].into(),
        levels: fixed[6].into(),
        depth: fixed[7].into(),
        width: pair(&fixed[8..10]) as usize,
        height: pair(&fixed[10..12]) as usize,
        rectangles: rectangles::of_numbers(numbers),
    })
}

const SHORT: &str = "the stream is shorter than its header";

/// Which of the causes of 12 it was.
fn of_length(stream: &[u8]) -> String {
    let there = words::count(stream.len(), "byte");
    let Some(fixed) = stream.first_chunk::<14>() else {
        return format!("{SHORT}: {there}, where a header has 14 at least; nothing can be shown of it");
    };
    let count = usize::from(fixed[12]);
    if stream.len() < 14 + 8 * count {
        return format!(
            "{SHORT}: a header of {} needs {} bytes, and {} are there; nothing can be shown of it",
            words::count(count, "rectangle"),
            14 + 8 * count,
            stream.len()
        );
    }
    let told = u64::from(u32::from_be_bytes([fixed[0], fixed[1], fixed[2], fixed[3]])) + 4;
    let advice = match told < 14 + 8 * count as u64 {
        true => "it is not a stream".to_string(),
        false => {
            format!("it is not a stream, or other bytes stand behind it, which 'head -c {told} IN > OUT' takes off")
        }
    };
    let told = words::grouped(told);
    format!("the length field does not fit the length: {there}, where by that field they are {told}; {advice}")
}

/// Which of the causes of 15 it was.
pub fn of_cut(wanted: usize, stream: &Stream, cable: &Cable) -> String {
    let Ok(reading) = stream.read() else {
        return meaning(15).to_string();
    };
    let arrived = report::bytes_arrived(stream);
    if !reading.whole {
        return format!(
            "the marked part is not whole, so that there is no length to cut to: {arrived}; 'show' shows what arrived"
        );
    }
    let limit = match wanted < reading.region_mark {
        true => format!("below the region mark, {}; --mark cuts to it", cable.length(reading.region_mark)),
        false if stream.bytes.len() < stream.sent => format!("above what there is: {arrived}"),
        false => format!("above the stream's length, {}", words::count(stream.bytes.len(), "byte")),
    };
    format!("the wanted length, {}, is {limit}", words::count(wanted, "byte"))
}

#[cfg(test)]
mod tests {
    use super::*;

    #[test]
    fn a_value_of_0_has_one_bit() {
        assert_eq!([0, 1, 2, 3, 255, 256, 1023, 1024].map(bits), [1, 1, 2, 2, 8, 9, 10, 11]);
    }

    #[test]
    fn the_largest_value_of_any_depth() {
        assert_eq!([1, 8, 10].map(top), [1, 255, 1023]);
        assert_eq!(top(64), top(usize::MAX));
    }
}
