use super::*;
use crate::chance::chance;

/// A chunk with its check sum, which the png crate works out behind a header of its own.
fn chunk(name: &[u8; 4], data: &[u8]) -> Vec<u8> {
    let mut file = Vec::new();
    let mut writer = Encoder::new(&mut file, 1, 1).write_header().unwrap();
    writer.write_chunk(ChunkType(*name), data).unwrap();
    drop(writer);
    let header = png_chunks::SIGNATURE.len() + 25;
    file[header..header + 12 + data.len()].to_vec()
}

/// A zlib stream of one stored block.
fn stored(data: &[u8]) -> Vec<u8> {
    let length = data.len() as u16;
    let (a, b) = data.iter().fold((1u32, 0u32), |(a, b), &byte| {
        let a = (a + u32::from(byte)) % 65521;
        (a, (b + a) % 65521)
    });
    let mut stream = vec![0x78, 0x01, 0x01];
    stream.extend(length.to_le_bytes());
    stream.extend((!length).to_le_bytes());
    stream.extend(data);
    stream.extend((b << 16 | a).to_be_bytes());
    stream
}

/// What a header says: width, height, bit depth, colour type, and 1 for an interlaced picture.
type Header = (u32, u32, u8, u8, u8);

/// A file of a header, further chunks, and rows that each begin with their filter, 0.
fn file(header: Header, further: &[(&[u8; 4], &[u8])], rows: &[u8]) -> Vec<u8> {
    let (width, height, bits, colour, interlaced) = header;
    let mut data = width.to_be_bytes().to_vec();
    data.extend(height.to_be_bytes());
    data.extend([bits, colour, 0, 0, interlaced]);
    let mut file = png_chunks::SIGNATURE.to_vec();
    file.extend(chunk(b"IHDR", &data));
    file.extend(further.iter().flat_map(|(name, data)| chunk(name, data)));
    file.extend(chunk(b"IDAT", &stored(rows)));
    file.extend(chunk(b"IEND", b""));
    file
}

fn refused(file: &[u8], word: &str) {
    let message = parse(file).expect_err("should be turned back");
    assert!(message.contains(word), "{message}");
}

fn picture(width: usize, height: usize, top: u16, samples: &[u16]) -> Picture {
    Picture { width, height, top, samples: samples.to_vec() }
}

#[test]
fn every_bit_depth() {
    let one = file((10, 2, 1, 0, 0), &[], &[0, 0b10110010, 0b01000000, 0, 0b00000000, 0b10000000]);
    let samples = [1, 0, 1, 1, 0, 0, 1, 0, 0, 1, 0, 0, 0, 0, 0, 0, 0, 0, 1, 0];
    assert_eq!(parse(&one).unwrap(), picture(10, 2, 1, &samples));
    let two = file((5, 1, 2, 0, 0), &[], &[0, 0b00011011, 0b10000000]);
    assert_eq!(parse(&two).unwrap(), picture(5, 1, 3, &[0, 1, 2, 3, 2]));
    let four = file((3, 1, 4, 0, 0), &[], &[0, 0x5a, 0xf0]);
    assert_eq!(parse(&four).unwrap(), picture(3, 1, 15, &[5, 10, 15]));
    let eight = file((3, 1, 8, 0, 0), &[], &[0, 0, 200, 255]);
    assert_eq!(parse(&eight).unwrap(), picture(3, 1, 255, &[0, 200, 255]));
    let sixteen = file((2, 1, 16, 0, 0), &[], &[0, 0x12, 0x34, 0xff, 0xff]);
    assert_eq!(parse(&sixteen).unwrap(), picture(2, 1, 65535, &[0x1234, 0xffff]));
}

/// Adam7 sends a picture of 3 by 3 as the samples 0, 2, 6 and 8, 1, 7, then 3 to 5.
#[test]
fn interlaced() {
    let eight = file((3, 3, 8, 0, 1), &[], &[0, 10, 0, 12, 0, 16, 18, 0, 11, 0, 17, 0, 13, 14, 15]);
    assert_eq!(parse(&eight).unwrap(), picture(3, 3, 255, &[10, 11, 12, 13, 14, 15, 16, 17, 18]));
    let rows = [0, 0b00000000, 0, 0b10000000, 0, 0b10000000, 0, 0b01000000, 0, 0b11000000, 0, 0b11000100];
    let two = file((3, 3, 2, 0, 1), &[], &rows);
    assert_eq!(parse(&two).unwrap(), picture(3, 3, 3, &[0, 1, 2, 3, 0, 1, 2, 3, 0]));
}

#[test]
fn significant_bits() {
    // Three bits, 101, in eight: 10110110.
    let repeated = |bits: &[u8]| file((2, 1, 8, 0, 0), &[(b"sBIT", bits)], &[0, 0b10110110, 0b11111111]);
    assert_eq!(parse(&repeated(&[3])).unwrap(), picture(2, 1, 7, &[5, 7]));
    for bits in [&[][..], &[0], &[8], &[9], &[255], &[2]] {
        assert_eq!(parse(&repeated(bits)).unwrap(), picture(2, 1, 255, &[0b10110110, 255]), "{bits:?}");
    }
    // In proportion, 3 of 31 is 24.7 of 255 and 16 of 31 is 131.6; repeated, their bits are 24 and 132.
    let proportion = |a, b| parse(&file((2, 1, 8, 0, 0), &[(b"sBIT", &[5])], &[0, a, b])).unwrap();
    assert_eq!(proportion(25, 132), picture(2, 1, 31, &[3, 16]));
    assert_eq!(proportion(24, 132), picture(2, 1, 31, &[3, 16]));
    assert_eq!(proportion(26, 132), picture(2, 1, 255, &[26, 132]));
    // Zeros behind, in every sample or in one alone.
    let shifted = |a, b| parse(&file((2, 1, 8, 0, 0), &[(b"sBIT", &[3])], &[0, a, b])).unwrap();
    assert_eq!(shifted(0b10100000, 0b11100000), picture(2, 1, 7, &[5, 7]));
    assert_eq!(shifted(0b10100000, 0b11111111), picture(2, 1, 255, &[0b10100000, 255]));
}

#[test]
fn bits_are_repeated_from_the_highest_down() {
    assert_eq!(widened(0b101, 3, 8), 0b10110110);
    assert_eq!(widened(0b101, 3, 4), 0b1011);
    assert_eq!(widened(0b1000000001, 10, 16), 0b1000000001100000);
    assert_eq!(widened(0b10000, 5, 16), 0b1000010000100001);
    assert_eq!(widened(200, 8, 8), 200);
    for few in 1..=16 {
        for bits in few..=16 {
            assert_eq!(widened(u16::MAX >> (16 - few), few, bits), u16::MAX >> (16 - bits), "{few} {bits}");
        }
    }
}

#[test]
fn both_ways_keep_the_sample_in_the_highest_bits() {
    for few in 1..=10 {
        for bits in few..=16 {
            for sample in 0..1 << few {
                assert_eq!(widened(sample, few, bits) >> (bits - few), sample, "{few} {bits}");
                assert_eq!(rounded(sample, few, bits) >> (bits - few), sample, "{few} {bits}");
            }
        }
    }
}

#[test]
fn every_sample_of_every_depth_comes_back() {
    for depth in 1..=16 {
        let top = u16::MAX >> (16 - depth);
        let mut samples: Vec<u16> = (0..=top.min(1023)).chain([top]).collect();
        // An odd width, so that rows end within a byte.
        samples.resize(samples.len().next_multiple_of(7), top / 3);
        let all = picture(7, samples.len() / 7, top, &samples);
        assert_eq!(parse(&format(&all).unwrap()).unwrap(), all, "{depth}");
    }
}

#[test]
fn a_viewer_is_shown_the_right_brightness() {
    let bit_depth = |top| format(&picture(1, 1, top, &[0])).unwrap()[24];
    let tops = [1, 3, 7, 15, 31, 127, 255, 511, 1023, 65535];
    assert_eq!(tops.map(bit_depth), [1, 2, 4, 4, 8, 8, 8, 16, 16, 16]);
    let ten = format(&picture(2, 1, 1023, &[1023, 512])).unwrap();
    assert!(ten.windows(9).any(|w| w == b"\0\0\0\x01sBIT\x0a"));
    assert!(!format(&picture(1, 1, 255, &[0])).unwrap().windows(4).any(|w| w == b"sBIT"));
}

#[test]
fn colours_and_transparency_are_told() {
    let palette: (&[u8; 4], &[u8]) = (b"PLTE", &[0, 0, 0]);
    refused(&file((1, 1, 8, 2, 0), &[], &[0, 1, 2, 3]), "colour waits for a later version: 'pngtopnm IN | ppmtopgm");
    refused(&file((1, 1, 8, 3, 0), &[palette], &[0, 0]), "palette; colour waits for a later version");
    let mixed = "colours and transparency; colour waits for a later version, and no transparency is carried: \
                 'pngtopnm -mix IN | ppmtopgm > OUT.pgm'";
    refused(&file((1, 1, 8, 6, 0), &[], &[0, 1, 2, 3, 4]), mixed);
    refused(&file((1, 1, 8, 2, 0), &[(b"tRNS", &[0, 1, 0, 2, 0, 3])], &[0, 1, 2, 3]), mixed);
    refused(&file((1, 1, 8, 3, 0), &[palette, (b"tRNS", &[0])], &[0, 0]), mixed);
    refused(&file((1, 1, 8, 4, 0), &[], &[0, 1, 2]), "'pngtopnm -mix IN > OUT.pgm'");
    refused(&file((1, 1, 8, 0, 0), &[(b"tRNS", &[0, 1])], &[0, 1]), "transparent value (tRNS)");
}

#[test]
fn further_chunks_change_nothing() {
    // A frame of an animation that is smaller than the picture, a broken colour profile, and a text.
    let mut frame = vec![0, 0, 0, 0, 0, 0, 0, 1, 0, 0, 0, 1];
    frame.extend([0; 14]);
    let odd: [(&[u8; 4], &[u8]); 4] = [
        (b"acTL", &[0, 0, 0, 1, 0, 0, 0, 0]),
        (b"fcTL", &frame),
        (b"iCCP", b"x\0\0broken"),
        (b"tEXt", b"no separator"),
    ];
    let mut file = file((2, 1, 8, 0, 0), &odd, &[0, 3, 4]);
    assert_eq!(parse(&file).unwrap().samples, [3, 4]);
    file.extend(b"and whatever stands behind the end mark");
    assert_eq!(parse(&file).unwrap().samples, [3, 4]);
}

#[test]
fn a_chunk_that_has_to_be_known() {
    refused(&file((1, 1, 8, 0, 0), &[(b"NEWx", b"")], &[0, 1]), "unknown kind, NEWx");
}

#[test]
fn damaged_files() {
    refused(&file((2, 2, 8, 0, 0), &[], &[0, 1, 2]), "damaged");
    refused(&file((1, 1, 8, 0, 0), &[], &[9, 1]), "damaged");
    refused(&file((1, 1, 3, 0, 0), &[], &[0, 1]), "damaged");
    refused(&file((1, 1, 8, 1, 0), &[], &[0, 1]), "damaged");
    refused(&file((0, 1, 8, 0, 0), &[], &[0, 1]), "is 0");
    let mut no_data = png_chunks::SIGNATURE.to_vec();
    no_data.extend(chunk(b"IEND", b""));
    refused(&no_data, "damaged");
}

#[test]
fn huge_sizes_take_no_memory() {
    let most = i32::MAX as u32;
    refused(&file((most, most, 16, 0, 0), &[], &[0]), "2147483647 by 2147483647 samples, more than");
    refused(&file((u32::MAX, u32::MAX, 1, 0, 0), &[], &[0]), "more than");
    refused(&file((1 << 14, 1 << 14, 16, 0, 0), &[], &[0]), "cannot hold 16384 by 16384 samples");
    refused(&file((1 << 28, 1, 1, 0, 1), &[], &[0]), "cannot hold");
}

fn samples_for_damage() -> Vec<u8> {
    let samples: Vec<u16> = (0..35).map(|i| i * 29).collect();
    format(&picture(7, 5, 1023, &samples)).unwrap()
}

#[test]
fn every_cut_is_turned_back() {
    let file = samples_for_damage();
    for length in png_chunks::SIGNATURE.len()..file.len() {
        refused(&file[..length], "cut");
    }
}

/// The check sums tell every changed byte that the samples depend on. Where the name of the sBIT chunk is changed into
/// one that need not be known, the samples are taken as they stand, with all 16 bits.
#[test]
fn whatever_is_changed_is_turned_back_or_the_same_picture() {
    let file = samples_for_damage();
    let right = parse(&file).unwrap();
    let wide: Vec<u16> = right.samples.iter().map(|&s| widened(s, 10, 16)).collect();
    let right = [right, picture(7, 5, 65535, &wide)];
    for place in png_chunks::SIGNATURE.len()..file.len() {
        for bit in 0..8 {
            let mut changed = file.clone();
            changed[place] ^= 1 << bit;
            if let Ok(picture) = parse(&changed) {
                assert!(right.contains(&picture), "{place} {bit}");
            }
        }
    }
}

/// With check sums that fit, so that the decoder meets every kind of header and compressed data.
#[test]
fn whatever_a_header_says_is_parsed_or_turned_back() {
    let mut next = chance();
    for _ in 0..4_000 {
        let header = (next(9) as u32, next(9) as u32, [1, 2, 4, 8, 16, 3][next(6)], next(3) as u8, next(3) as u8);
        let rows: Vec<u8> = (0..next(40)).map(|_| next(6) as u8).collect();
        let bits = [next(18) as u8];
        if let Ok(picture) = parse(&file(header, &[(b"sBIT", &bits)], &rows)) {
            assert_eq!(picture.samples.len(), picture.width * picture.height);
            assert!(picture.samples.iter().all(|&s| s <= picture.top));
        }
    }
}
