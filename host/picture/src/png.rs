//! Grey PNG pictures of 1, 2, 4, 8 or 16 bits a sample, interlaced or not. The png crate reads and writes them, without
//! any of its transformations, so that no sample is changed; other depths are kept in PNG's own way, see `widened`.

use crate::png_chunks::{self, Chunks};
use crate::{zeros, Picture, MOST_SAMPLES};
use ::png::chunk::ChunkType;
use ::png::{BitDepth, ColorType, Decoder, DecodingError, Encoder, EncodingError, Info, Limits, Transformations};

/// The bytes that deflate makes of one, at most.
const MOST_FROM_A_BYTE: u64 = 1032;

/// The largest row within `MOST_SAMPLES`, in bytes.
const LIMITS: Limits = Limits { bytes: 2 << 28 };

const DAMAGED: &str =
    "the PNG file is damaged: its header, its compressed data or a check sum is not right; copy or make the file again";
const COLOUR: &str =
    "the PNG picture has colours or a palette; colour waits for a later version: 'pngtopnm IN | ppmtopgm > OUT.pgm' \
     (netpbm) makes it grey";
const ALPHA: &str =
    "the PNG picture has an alpha channel, and no transparency is carried: 'pngtopnm -mix IN > OUT.pgm' (netpbm) mixes \
     it with its background";
const TRANSPARENT_COLOUR: &str =
    "the PNG picture has colours and transparency; colour waits for a later version, and no transparency is \
     carried: 'pngtopnm -mix IN | ppmtopgm > OUT.pgm' (netpbm) makes it grey, mixed with its background";
const TRANSPARENT: &str = "the PNG picture has a transparent value (tRNS), and no transparency is carried: \
     'pngtopnm -mix IN | ppmtopgm > OUT.pgm' (netpbm) mixes it with its background";

/// Takes a file that begins with PNG's signature.
pub fn parse(file: &[u8]) -> Result<Picture, String> {
    let chunks = png_chunks::walk(file)?;
    let mut decoder = Decoder::new_with_limits(&chunks.needed[..], LIMITS);
    decoder.set_transformations(Transformations::IDENTITY);
    let info = decoder.read_header_info().map_err(words)?;
    check_kind(info, &chunks)?;
    check_size(info, &chunks)?;
    let (width, height, bits) = (info.width as usize, info.height as usize, info.bit_depth as u32);
    let mut reader = decoder.read_info().map_err(words)?;
    let mut packed = zeros(reader.output_buffer_size())?;
    reader.next_frame(&mut packed).map_err(words)?;
    let samples = unpacked(&packed, width, bits);
    let (samples, depth) = narrowed(samples, chunks.significant, bits);
    Ok(Picture { width, height, top: u16::MAX >> (u16::BITS - depth), samples })
}

/// The png crate's errors in plain words. It does not tell the ways in which a file is damaged apart.
fn words(error: DecodingError) -> String {
    match error {
        DecodingError::LimitsExceeded => "the PNG file needs more memory than is taken for a picture",
        DecodingError::IoError(_) | DecodingError::Format(_) | DecodingError::Parameter(_) => DAMAGED,
    }
    .to_string()
}

fn check_kind(info: &Info, chunks: &Chunks) -> Result<(), String> {
    match info.color_type {
        ColorType::Rgb | ColorType::Indexed if !chunks.transparent => Err(COLOUR.to_string()),
        ColorType::Rgb | ColorType::Indexed | ColorType::Rgba => Err(TRANSPARENT_COLOUR.to_string()),
        ColorType::GrayscaleAlpha => Err(ALPHA.to_string()),
        ColorType::Grayscale if chunks.transparent => Err(TRANSPARENT.to_string()),
        ColorType::Grayscale => Ok(()),
    }
}

/// Nothing may be reserved for samples that the header claims and the file cannot have.
fn check_size(info: &Info, chunks: &Chunks) -> Result<(), String> {
    let (width, height) = info.size();
    let samples = u64::from(width) * u64::from(height);
    if samples == 0 {
        return Err("the width or the height is 0".to_string());
    }
    if samples > MOST_SAMPLES {
        return Err(format!(
            "the picture has {width} by {height} samples, more than the {MOST_SAMPLES} that are read: \
             'pngtopnm IN | pamscale -xysize 4096 4096 > OUT.pgm' (netpbm) makes it smaller"
        ));
    }
    if samples * info.bit_depth as u64 / 8 / MOST_FROM_A_BYTE > chunks.data as u64 {
        return Err(format!(
            "the PNG file is damaged: {} bytes of compressed data cannot hold {width} by {height} samples",
            chunks.data
        ));
    }
    Ok(())
}

/// The samples of rows that begin at whole bytes, the highest bits of a byte first.
fn unpacked(packed: &[u8], width: usize, bits: u32) -> Vec<u16> {
    if bits == 16 {
        return packed.chunks_exact(2).map(|b| u16::from_be_bytes([b[0], b[1]])).collect();
    }
    let bits = bits as usize;
    let mask = u16::MAX >> (16 - bits);
    let sample = |row: &[u8], x: usize| u16::from(row[x * bits / 8] >> (8 - bits - x * bits % 8)) & mask;
    packed.chunks_exact((width * bits).div_ceil(8)).flat_map(|row| (0..width).map(move |x| sample(row, x))).collect()
}

/// What `unpacked` takes.
fn packed(samples: &[u16], width: usize, bits: u32) -> Vec<u8> {
    if bits == 16 {
        return samples.iter().flat_map(|s| s.to_be_bytes()).collect();
    }
    let byte = |part: &[u16]| part.iter().zip(1..).fold(0, |byte, (&s, i)| byte | (s << (8 - bits * i)) as u8);
    samples.chunks(width).flat_map(|row| row.chunks(8 / bits as usize).map(byte)).collect()
}

/// A sample of `few` bits as one of `bits`: its bits repeated from the highest down, as PNG's specification gives it.
fn widened(sample: u16, few: u32, bits: u32) -> u16 {
    let mut wide = 0;
    let mut room = bits;
    while room >= few {
        room -= few;
        wide |= u32::from(sample) << room;
    }
    (wide | u32::from(sample) >> (few - room)) as u16
}

/// A sample of `few` bits as one of `bits`: in proportion, rounded, another way that PNG's specification gives.
/// Other programs write such files.
fn rounded(sample: u16, few: u32, bits: u32) -> u16 {
    let (from, to) = ((1u64 << few) - 1, (1u64 << bits) - 1);
    ((2 * u64::from(sample) * to + from) / (2 * from)) as u16
}

/// A sample of `few` bits as one of `bits`: zeros behind it, the third way.
fn shifted(sample: u16, few: u32, bits: u32) -> u16 {
    sample << (bits - few)
}

/// The samples with the bits that are significant, and the number of these bits, where all samples were made of them in
/// one of the three ways; else as they stand.
fn narrowed(samples: Vec<u16>, significant: Option<u32>, bits: u32) -> (Vec<u16>, u32) {
    let Some(few) = significant.filter(|&few| 0 < few && few < bits) else {
        return (samples, bits);
    };
    // Each way keeps the sample in the highest bits.
    let high: Vec<u16> = samples.iter().map(|s| s >> (bits - few)).collect();
    let made_by = |way: fn(u16, u32, u32) -> u16| high.iter().map(|&s| way(s, few, bits)).eq(samples.iter().copied());
    if made_by(widened) || made_by(rounded) || made_by(shifted) {
        (high, few)
    } else {
        (samples, bits)
    }
}

/// The bytes of a PNG file. A depth that PNG does not have becomes the next one that it has, with an sBIT chunk.
pub fn format(picture: &Picture) -> Result<Vec<u8>, String> {
    let mut file = Vec::new();
    match write(picture, &mut file) {
        Ok(()) => Ok(file),
        Err(_) => {
            Err(format!("{} by {} samples do not fit a PNG file; write a PGM file", picture.width, picture.height))
        }
    }
}

/// The least depth of PNG that holds a depth.
fn bit_depth(depth: usize) -> BitDepth {
    match depth {
        0..=1 => BitDepth::One,
        2 => BitDepth::Two,
        3..=4 => BitDepth::Four,
        5..=8 => BitDepth::Eight,
        _ => BitDepth::Sixteen,
    }
}

/// The bits that a sample of a depth has in a PNG file.
pub fn bits(depth: usize) -> usize {
    bit_depth(depth) as usize
}

fn write(picture: &Picture, file: &mut Vec<u8>) -> Result<(), EncodingError> {
    let bit_depth = bit_depth(picture.depth());
    let (depth, bits) = (picture.depth() as u32, bit_depth as u32);
    // PNG has sides of 1 to 2^31 - 1; the encoder turns 0 back.
    let side = |side: usize| i32::try_from(side).map_or(0, i32::unsigned_abs);
    let mut encoder = Encoder::new(file, side(picture.width), side(picture.height));
    encoder.set_color(ColorType::Grayscale);
    encoder.set_depth(bit_depth);
    let mut writer = encoder.write_header()?;
    if depth < bits {
        writer.write_chunk(ChunkType(*b"sBIT"), &[depth as u8])?;
    }
    let samples: Vec<u16> = picture.samples.iter().map(|&s| widened(s, depth, bits)).collect();
    writer.write_image_data(&packed(&samples, picture.width, bits))?;
    writer.finish()
}

#[cfg(test)]
mod tests;
