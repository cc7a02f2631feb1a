//! The picture at level r: the areas of a panel, the levels of a worked stream of
//! docs/FORMAT.md, and every refusal in its place.

use reference::READ_RESULTS;

/// The areas that a panel's levels leave: a buffer of any other length is refused.
#[test]
fn areas_of_a_panel() {
    let plane = vec![0; 1366 * 768];
    let sides = [(683, 384), (342, 192), (171, 96), (86, 48), (43, 24)];
    for (r, (width, height)) in (1..).zip(sides) {
        let number = |undone: usize, shown: usize| {
            let (mut undone, mut shown) = (vec![99; undone], vec![99; shown]);
            reference::show_level(2, 5, r, 8, 1366, 768, &plane, &mut undone, &mut shown)
        };
        let len = width * height;
        assert_eq!(number(len, len), 0, "r {r}");
        for other in [len - 1, len + 1, plane.len()] {
            assert_eq!(number(other, len), 5, "r {r}");
            assert_eq!(number(len, other), 5, "r {r}");
        }
    }
}

/// The picture 10 7 49 / 4 4 1 / 20 9 30 under kernel 3 and J 2, its last sample
/// the region.
const SHOT: [u8; 29] = [
    0x00, 0x00, 0x00, 0x19, 0x01, 0x03, 0x02, 0x08, 0x00, 0x03, 0x00, 0x03, 0x01, 0x05, 0x00, 0x02,
    0x00, 0x02, 0x00, 0x01, 0x00, 0x01, 0x1b, 0xa9, 0x43, 0xfe, 0x1b, 0x4c, 0x50,
];

/// What a call on a stream of 3 by 3 gives: its number, and its buffers.
#[derive(Debug, PartialEq)]
struct Given {
    number: u64,
    plane: [i32; 9],
    mask: [u8; 9],
    undone: Vec<i32>,
    shown: Vec<u16>,
    results: [u64; READ_RESULTS + 1],
}

/// The stream at level r, with buffers of that length for the area.
fn show(stream: &[u8], r: usize, len: usize) -> Given {
    let mut given = Given {
        number: 99,
        plane: [99; 9],
        mask: [99; 9],
        undone: vec![99; len],
        shown: vec![99; len],
        results: [99; READ_RESULTS + 1],
    };
    given.number = reference::show_stream(
        stream,
        r,
        &mut given.plane,
        &mut given.mask,
        &mut given.undone,
        &mut given.shown,
        &mut given.results,
    );
    given
}

/// Accepted, with plane, mask and results as the reader gives them, and that
/// picture at level r.
fn check(stream: &[u8], r: usize, undone: &[i32], shown: &[u16]) {
    let (mut plane, mut mask) = ([99; 9], [99; 9]);
    let mut results = [99; READ_RESULTS + 1];
    let number = reference::read(stream, &mut plane, &mut mask, &mut results);
    let expected = Given {
        number,
        plane,
        mask,
        undone: undone.to_vec(),
        shown: shown.to_vec(),
        results,
    };
    assert_eq!(number, 0);
    assert_eq!(show(stream, r, undone.len()), expected);
}

/// Whole, and cut to the region mark, where −11 arrives as −8. That coefficient is
/// of the first level, so that only level 0 shows the difference.
#[test]
fn a_stream_at_each_level() {
    let mut cut = SHOT[..28].to_vec();
    cut[3] = 24;
    let samples = [10, 7, 49, 4, 4, 1, 20, 9, 30];
    check(&SHOT, 0, &samples.map(i32::from), &samples);
    let samples = [8, 8, 47, 3, 4, 0, 20, 9, 30];
    check(&cut, 0, &samples.map(i32::from), &samples);
    for stream in [&SHOT[..], &cut[..]] {
        check(stream, 1, &[-1, 24, 12, 8], &[0, 24, 12, 8]);
        check(stream, 2, &[11], &[11]);
    }
}

/// All that can be wrong is, and is put right one after the other.
#[test]
fn refusals_of_a_level() {
    let steps = [
        (1, [4, 0, 9, 0, 0]),
        (2, [0, 0, 9, 0, 0]),
        (17, [0, 2, 3, 0, 0]),
        (17, [0, 2, usize::MAX, 0, 0]),
        (3, [0, 2, 1, 0, 0]),
        (4, [0, 2, 1, 8, 0]),
        (5, [0, 2, 0, 8, 3]),
        (5, [0, 2, 2, 8, 3]),
        (10, [0, 2, 1, 8, 3]),
    ];
    let mut plane = [0; 9];
    plane[8] = 1 << 22; // outside the area
    let (mut undone, mut shown) = ([99; 4], [99; 4]);
    for (number, [kernel, levels, r, depth, w]) in steps {
        let (undone, shown) = (&mut undone, &mut shown);
        let returned = reference::show_level(kernel, levels, r, depth, w, 3, &plane, undone, shown);
        assert_eq!((returned, *undone, *shown), (number, [99; 4], [99; 4]));
    }
    plane[8] -= 1;
    let returned = reference::show_level(0, 2, 1, 8, 3, 3, &plane, &mut undone, &mut shown);
    assert_eq!((returned, undone, shown), (0, [0; 4], [0; 4]));
}

fn check_refused(number: u64, stream: &[u8], r: usize, len: usize) {
    let left = if number == 16 { 0 } else { 99 };
    let mut results = [0; READ_RESULTS + 1];
    results[READ_RESULTS] = 99;
    let expected = Given {
        number,
        plane: [left; 9],
        mask: [left as u8; 9],
        undone: vec![99; len],
        shown: vec![99; len],
        results,
    };
    assert_eq!(show(stream, r, len), expected);
}

/// The same of a stream: each step puts one byte right.
#[test]
fn refusals_of_a_stream_at_a_level() {
    let mut stream = SHOT.to_vec();
    stream.resize(14 + 8 * 33, 0);
    stream[..4].copy_from_slice(&[0, 0, 0x01, 0x12]);
    for place in [4, 5, 6, 7, 8, 12, 13, 17] {
        stream[place] = 99;
    }
    for (number, place, byte) in [(12, 12, 33), (13, 4, 1), (1, 5, 3), (2, 6, 2)] {
        check_refused(number, &stream, 3, 3);
        stream[place] = byte;
    }
    check_refused(17, &stream, 3, 3);
    check_refused(17, &stream, usize::MAX, 3);
    for (number, place, byte) in [(3, 7, 8), (4, 8, 0), (7, 12, 1), (8, 17, 2), (14, 13, 5)] {
        check_refused(number, &stream, 1, 3);
        stream[place] = byte;
    }
    check_refused(5, &stream, 1, 3);
    check_refused(16, &stream, 1, 4);
}
