//! The worked examples of docs/FORMAT.md through the public functions, and the
//! refusals and buffer contents that it fixes beside them.

use reference::READ_RESULTS;

const PICTURE: [u16; 4] = [10, 7, 4, 4];
const SHOT: [u8; 24] = [
    0x00, 0x00, 0x00, 0x14, 0x01, 0x00, 0x01, 0x08, 0x00, 0x02, 0x00, 0x02, 0x01, 0x03, 0x00, 0x00,
    0x00, 0x00, 0x00, 0x01, 0x00, 0x01, 0x92, 0x49,
];

fn transformed(kernel: usize) -> [i32; 4] {
    let mut plane = [99; 4];
    let number = reference::transform(kernel, 1, 8, 2, 2, &PICTURE, &mut plane);
    assert_eq!(number, 0);
    plane
}

#[test]
fn pictures() {
    assert_eq!(transformed(0), [6, 1, 4, 3]);
    assert_eq!(transformed(2), [6, 2, 5, 4]);
    assert_eq!(transformed(3), [7, -1, -5, 3]);
}

#[test]
fn pictures_come_back() {
    for kernel in 0..4 {
        let mut undone = [99; 4];
        let mut shown = [99; 4];
        let plane = transformed(kernel);
        assert_eq!(reference::undo(kernel, 1, 2, 2, &plane, &mut undone), 0);
        assert_eq!(reference::show(8, 2, 2, &undone, &mut shown), 0);
        assert_eq!(shown, PICTURE);
    }
}

#[test]
fn showing_brings_into_range() {
    let mut shown = [9; 4];
    let undone = [i32::MIN, -1, 256, 255];
    assert_eq!(reference::show(8, 2, 2, &undone, &mut shown), 0);
    assert_eq!(shown, [0, 0, 255, 255]);
}

/// Both rows form one pair, so the column pass gives the upper row's marks to
/// lows and highs alike.
#[test]
fn masks() {
    let mut region = [0; 16];
    region[3] = 1;
    let mut mask = [9; 16];
    assert_eq!(reference::mask(0, 1, 8, 2, &region, &mut mask), 0);
    assert_eq!(mask, [0, 1, 0, 0, 0, 1, 0, 0, 0, 1, 0, 0, 0, 1, 0, 0]);
    assert_eq!(reference::mask(3, 1, 8, 2, &region, &mut mask), 0);
    assert_eq!(mask, [0, 1, 1, 0, 1, 1, 1, 0, 0, 1, 1, 0, 1, 1, 1, 0]);
}

#[test]
fn dropping_two_planes() {
    let mut plane = [-7, 3, -7, 3];
    assert_eq!(reference::truncate(2, 2, 2, &[0, 0, 1, 1], &mut plane), 0);
    assert_eq!(plane, [-4, 0, -7, 3]);
}

/// Sides within the limits are taken under every J, all others refused.
#[test]
fn sides() {
    for (w, h) in [(6, 4), (8, 4), (1, 1), (4096, 1), (1, 4095)] {
        let samples = vec![0; w * h];
        let mut plane = vec![9; w * h];
        let number = reference::transform(0, 2, 8, w, h, &samples, &mut plane);
        assert_eq!((number, plane), (0, vec![0; w * h]), "{w} by {h}");
    }
    for (w, h) in [(0, 4), (4, 0), (4097, 1), (1, 4097)] {
        let mut plane = [9; 4];
        let number = reference::transform(0, 2, 8, w, h, &[0; 4], &mut plane);
        assert_eq!((number, plane), (4, [9; 4]), "{w} by {h}");
    }
}

/// Nine samples, one pair and one unpaired sample in each row and column.
#[test]
fn three_by_three() {
    let picture = [10, 7, 49, 4, 4, 1, 20, 9, 30];
    for (kernel, levels, expected) in [
        (0, 1, [6, 25, 1, 14, 30, 11, 4, 48, 3]),
        (1, 1, [6, 25, 7, 14, 30, 15, 6, 50, 16]),
        (2, 1, [6, 25, 9, 14, 30, 17, 8, 51, 22]),
        (3, 1, [-1, 24, -11, 12, 8, -5, 0, -28, 21]),
        (0, 2, [18, -18, 1, -7, -3, 11, 4, 48, 3]),
        (3, 2, [11, 11, -11, -2, -29, -5, 0, -28, 21]),
    ] {
        let mut plane = [99; 9];
        let number = reference::transform(kernel, levels, 8, 3, 3, &picture, &mut plane);
        assert_eq!(
            (number, plane),
            (0, expected),
            "kernel {kernel}, J {levels}"
        );
    }
}

#[test]
fn the_stream() {
    let mut mask = [9; 4];
    let mut stream = [0xEE; 26];
    let mut results = [9; 4];
    let number = reference::write(
        &transformed(0),
        &[0, 0, 1, 1],
        0,
        1,
        8,
        2,
        2,
        &mut mask,
        &mut stream,
        &mut results,
    );
    assert_eq!(number, 0);
    assert_eq!(stream[..24], SHOT);
    assert_eq!(stream[24..], [0xEE, 0xEE]);
    assert_eq!(results, [24, 24, 4, 9]);
    assert_eq!(mask, [1; 4]);
}

#[test]
fn a_short_stream_buffer_learns_the_needed_length() {
    let mut mask = [9; 4];
    let mut stream = [0xEE; 23];
    let mut results = [9; 3];
    let number = reference::write(
        &transformed(0),
        &[0, 0, 1, 1],
        0,
        1,
        8,
        2,
        2,
        &mut mask,
        &mut stream,
        &mut results,
    );
    assert_eq!(number, 11);
    assert_eq!(results, [24, 0, 0]);
    assert_eq!(mask, [1; 4]);
    assert_eq!(stream, [0xEE; 23]);
}

#[test]
fn the_stream_is_read() {
    let mut plane = [9; 4];
    let mut mask = [9; 4];
    let mut results = [9; READ_RESULTS + 1];
    assert_eq!(
        reference::read(&SHOT, &mut plane, &mut mask, &mut results),
        0
    );
    assert_eq!(plane, [6, 1, 4, 3]);
    assert_eq!(mask, [1; 4]);
    assert_eq!(results[..11], [4, 1, 24, 0, 0, 1, 8, 2, 2, 3, 1]);
    assert_eq!(results[11..15], [0, 0, 1, 1]);
    assert_eq!(results[15..READ_RESULTS], [0; READ_RESULTS - 15]);
    assert_eq!(results[READ_RESULTS], 9);
}

/// Bits 1001 0010, then nothing: 6 and 4 have their first 1 and its sign, plane
/// 1 of the second coefficient is the last that came.
#[test]
fn a_cut_body_is_read() {
    let mut stream = SHOT[..23].to_vec();
    stream[3] = 19;
    let mut plane = [9; 4];
    let mut mask = [9; 4];
    let mut results = [9; 11];
    assert_eq!(
        reference::read(&stream, &mut plane, &mut mask, &mut results),
        0
    );
    assert_eq!(plane, [6, 0, 4, 0]);
    assert_eq!(results, [4, 0, 0, 3, 0, 1, 8, 2, 2, 3, 1]);
}

#[test]
fn a_sign_that_does_not_arrive_leaves_zero() {
    // No rectangle, T 1, and the eighth bit a first 1: 0 0 0 1+ 1+ 1(sign missing).
    let mut stream = SHOT[..14].to_vec();
    stream[3] = 11;
    stream[8..12].copy_from_slice(&[0, 4, 0, 2]);
    stream[12..14].copy_from_slice(&[0, 1]);
    stream.push(0b0001_0101);
    let mut plane = [9; 8];
    let mut mask = [9; 8];
    let mut results = [9; 4];
    assert_eq!(
        reference::read(&stream, &mut plane, &mut mask, &mut results),
        0
    );
    assert_eq!(plane, [0, 0, 0, 1, 1, 0, 0, 0]);
    assert_eq!(results, [0, 1, 14, 1]);
}

#[test]
fn a_further_byte_zeroes_plane_and_mask() {
    let mut stream = SHOT.to_vec();
    stream.push(0);
    stream[3] = 21;
    let mut plane = [9; 4];
    let mut mask = [9; 4];
    let mut results = [9; 2];
    assert_eq!(
        reference::read(&stream, &mut plane, &mut mask, &mut results),
        16
    );
    assert_eq!((plane, mask, results), ([0; 4], [0; 4], [0; 2]));
}

#[test]
fn the_cutter() {
    let mut plane = [9; 4];
    let mut mask = [9; 4];
    let mut out = [0xEE; 25];
    let mut results = [9; 1];
    let number = reference::cut(&SHOT, 24, &mut plane, &mut mask, &mut out, &mut results);
    assert_eq!((number, results), (0, [24]));
    assert_eq!(out[..24], SHOT);
    assert_eq!(out[24], 0xEE);

    let mut out = [0xEE; 23];
    let mut plane = [9; 4];
    let number = reference::cut(&SHOT, 23, &mut plane, &mut mask, &mut out, &mut results);
    assert_eq!((number, results, plane), (15, [0], [6, 1, 4, 3]));
    let number = reference::cut(&SHOT, 24, &mut plane, &mut mask, &mut out, &mut results);
    assert_eq!((number, results, out), (11, [24], [0xEE; 23]));
}

#[test]
fn the_body() {
    let mut results = [9; 3];
    assert_eq!(reference::body(&SHOT, &mut results), 0);
    assert_eq!(results, [22, 2, 9]);
    let mut other = SHOT;
    other[4] = 2;
    assert_eq!(reference::body(&other, &mut results), 13);
    assert_eq!(results, [0, 0, 9]);
    assert_eq!(reference::body(&other[..23], &mut results), 12);
}

#[test]
fn rectangles_near_the_top_of_their_type_are_outside() {
    let mut region = [9; 4];
    for numbers in [
        [u32::MAX, 0, 1, 1],
        [u32::MAX, 0, 2, 1],
        [0, 1, 1, u32::MAX],
    ] {
        assert_eq!(reference::region(&numbers, 2, 2, &mut region), 8);
    }
    assert_eq!(reference::region(&[0; 5], 2, 2, &mut region), 7);
    assert_eq!(reference::region(&[0; 132], 2, 2, &mut region), 7);
    assert_eq!(region, [9; 4]);
}
