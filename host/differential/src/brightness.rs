//! The brightness of a region beside the reference's: sides, lengths, bytes, faults
//! together, result arrays, and pictures to the largest.

use crate::call::Call;
use crate::group::Group;
use crate::guarded::held;
use crate::random::Random;
use crate::shots::{self, any_marks, any_samples, some_places, LIMIT_SIDES};

/// A call with so many cells for the results.
pub fn call_with((w, h): (usize, usize), picture: &[u16], region: &[u8], results: usize) -> Call {
    Call::Brightness {
        w,
        h,
        picture: picture.to_vec(),
        region: region.to_vec(),
        results: held(results),
    }
}

/// A call with a cell for each result.
pub fn call_of(size: (usize, usize), picture: &[u16], region: &[u8]) -> Call {
    call_with(size, picture, region, 4)
}

/// What a region of bytes 0 and 1 must return: 19 if it has no sample.
fn number_of(region: &[u8]) -> u64 {
    match region.contains(&1) {
        true => 0,
        false => 19,
    }
}

fn compare_region(group: &mut Group, size: (usize, usize), picture: &[u16], region: &[u8]) {
    let call = call_of(size, picture, region);
    group.expect_number(call, number_of(region), "0, or 19 without a sample");
}

/// Makes a call that must return this number and these results.
fn expect_answer(group: &mut Group, call: Call, expected: u64, worked: [u64; 4]) {
    let (number, answer) = group.compare(call.clone());
    let given = matches!(answer, Call::Brightness { results, .. } if results == worked);
    group.expect(
        number == expected && given,
        &call,
        "what was worked by hand",
    );
}

/// Sides at the limits and beyond, with buffers as long as W·H where there can be
/// any, and wrong bytes behind a wrong side.
pub fn sides(group: &mut Group, random: &mut Random) {
    let (w, h) = LIMIT_SIDES[group.case as usize];
    let (taken, len) = (shots::taken(w, h), shots::limit_len(w, h));
    let (picture, mut region) = (any_samples(random, len), any_marks(random, len));
    let expected = match taken {
        true => number_of(&region),
        false => 4,
    };
    if !taken && len > 0 {
        region[len - 1] = 2;
    }
    let call = call_of((w, h), &picture, &region);
    group.expect_number(call, expected, "0, 19 or 4 by the sides alone");
}

/// Either buffer empty, one too short, right and one too long, with a sample in the
/// region, with a wrong byte and without a sample.
pub fn buffer_lengths(group: &mut Group, random: &mut Random) {
    let shape = shots::tiny_shape(random);
    let (size, len) = ((shape.w, shape.h), shape.len());
    let near = [0, len - 1, len, len + 1];
    let picture = any_samples(random, len + 1);
    let wrong = random.within(2, 255) as u8;
    for (a, b) in near.iter().flat_map(|&a| near.map(|b| (a, b))) {
        for (byte, right) in [(1, 0), (wrong, 9), (0, 19)] {
            let expected = if [a, b] == [len; 2] { right } else { 5 };
            let call = call_of(size, &picture[..a], &vec![byte; b]);
            group.expect_number(call, expected, "0, 5, 9 or 19 under its condition alone");
        }
    }
}

/// Any byte above 1 at every place, and every byte above 1 at some place: in a region
/// with samples, and in one without.
pub fn every_wrong_byte(group: &mut Group, random: &mut Random) {
    let shape = shots::tiny_shape(random);
    let (size, len) = ((shape.w, shape.h), shape.len());
    let picture = any_samples(random, len);
    let regions = [any_marks(random, len), vec![0; len]];
    let places = (0..len).map(|place| (place, random.within(2, 255) as u8));
    let mut wrong: Vec<(usize, u8)> = places.collect();
    wrong.extend((2..=255).map(|byte| (random.below(len), byte)));
    for (place, byte) in wrong {
        for mut region in regions.clone() {
            region[place] = byte;
            group.expect_number(call_of(size, &picture, &region), 9, "refusal 9");
        }
    }
}

/// What a call is made of.
struct Parts {
    size: (usize, usize),
    picture: Vec<u16>,
    region: Vec<u8>,
}

/// The number of each fault, in the order of the tests.
const FAULTS: [u64; 6] = [4, 4, 5, 5, 9, 19];

/// Makes a fault by its place in that order.
fn spoil(random: &mut Random, parts: &mut Parts, fault: usize) {
    let side = random.pick(&[0, 4097, 1 << 16, 1 << 32, 1 << 63, usize::MAX]);
    let len = parts.size.0.wrapping_mul(parts.size.1);
    let other = random.pick(&[0, len - 1, len + 1, len + 64]);
    match fault {
        0 => parts.size.0 = side,
        1 => parts.size.1 = side,
        2 => parts.picture.resize(other, 7),
        3 => parts.region.resize(other, 1),
        4 => parts.region[random.below(len)] = random.within(2, 255) as u8,
        _ => parts.region.fill(0),
    }
}

/// Any of the faults at once: the first in the order decides. They are made the last
/// one first, so that sides and lengths are still the right ones for the others.
pub fn faults(group: &mut Group, random: &mut Random) {
    let shape = shots::tiny_shape(random);
    let len = shape.len();
    let mut parts = Parts {
        size: (shape.w, shape.h),
        picture: any_samples(random, len),
        region: any_marks(random, len),
    };
    parts.region[random.below(len)] = 1;
    let made = (0..FAULTS.len()).filter(|i| group.case >> i & 1 == 1);
    for fault in made.clone().rev() {
        spoil(random, &mut parts, fault);
    }
    let expected = made.map(|i| FAULTS[i]).next().unwrap_or(0);
    let results = random.pick(&shots::BRIGHTNESS_RESULTS);
    let call = call_with(parts.size, &parts.picture, &parts.region, results);
    group.expect_number(call, expected, "the first fault in the order");
}

/// Fewer cells than results, as many and more, under every number.
pub fn result_lengths(group: &mut Group, random: &mut Random) {
    let shape = shots::tiny_shape(random);
    let (size, len) = ((shape.w, shape.h), shape.len());
    let picture = any_samples(random, len);
    for cells in 0..=9 {
        for (byte, number) in [(1, 0), (2, 9), (0, 19)] {
            let call = call_with(size, &picture, &vec![byte; len], cells);
            group.expect_number(call, number, "0, 9 or 19 by the bytes");
        }
        let call = call_with(size, &picture[1..], &vec![1; len], cells);
        group.expect_number(call, 5, "refusal 5");
        let call = call_with((0, shape.h), &picture, &vec![1; len], cells);
        group.expect_number(call, 4, "refusal 4");
    }
}

/// Rows and columns of every length, which meet any count that the library takes
/// at a time, and what is left of it: any region, one sample, and a wrong byte alone.
pub fn every_length(group: &mut Group, random: &mut Random) {
    let len = group.case as usize + 1;
    for size in [(len, 1), (1, len)] {
        let picture = any_samples(random, len);
        compare_region(group, size, &picture, &any_marks(random, len));
        compare_region(group, size, &vec![u16::MAX; len], &vec![1; len]);
        compare_region(group, size, &picture, &vec![0; len]);
        for place in some_places(random, len) {
            let mut region = vec![0; len];
            region[place] = 1;
            let sample = u64::from(picture[place]);
            let call = call_of(size, &picture, &region);
            expect_answer(group, call, 0, [1, sample, sample, 0]);
            region[place] = random.within(2, 255) as u8;
            group.expect_number(call_of(size, &picture, &region), 9, "refusal 9");
        }
    }
}

/// Every size to 20 by 20: sparse, dense, full and empty regions.
pub fn every_size(group: &mut Group, random: &mut Random) {
    let case = group.case as usize;
    let size = (1 + case % 20, 1 + case / 20);
    let len = size.0 * size.1;
    for odds in [1, 2, 5, 40, len] {
        let picture = any_samples(random, len);
        let region: Vec<u8> = (0..len).map(|_| u8::from(random.once_in(odds))).collect();
        compare_region(group, size, &picture, &region);
    }
    compare_region(group, size, &any_samples(random, len), &vec![0; len]);
}

/// Every region of 5 by 3.
pub fn every_region(group: &mut Group, random: &mut Random) {
    let bits = group.case;
    let region: Vec<u8> = (0..15).map(|i| (bits >> i & 1) as u8).collect();
    compare_region(group, (5, 3), &any_samples(random, 15), &region);
}

/// So many samples of 65,535 that their sum comes near 2^32, then one more of any
/// value: 65,537 of them are 2^32 − 1.
pub fn sums_around_32_bits(group: &mut Group, random: &mut Random) {
    let (w, h) = random.pick(&[(4096, 17), (17, 4096), (257, 257), (263, 251)]);
    let count = random.within(65_530, 65_540);
    let mut picture = vec![u16::MAX; w * h];
    let region: Vec<u8> = (0..w * h).map(|i| u8::from(i <= count)).collect();
    picture[count] = random.pick(&[0, 1, 2, 3, 4, 65_534, 65_535]);
    compare_region(group, (w, h), &picture, &region);
}

/// 4,096 by 4,096 samples of 65,535: all of them, all but the last, the last alone, one
/// in two, none, a wrong byte at the end, and all of them with 0 for the last.
pub fn largest(group: &mut Group, _: &mut Random) {
    let (case, len) = (group.case, 1 << 24);
    let last = len - 1;
    let byte = |i: usize| match case {
        1 => u8::from(i < last),
        2 => u8::from(i == last),
        3 => u8::from(i % 2 == 1),
        4 => 0,
        5 => 1 + u8::from(i == last),
        _ => 1,
    };
    let (number, results) = [
        (0, [16_777_216, 1_099_494_850_560, 65_535, 0]),
        (0, [16_777_215, 1_099_494_785_025, 65_535, 0]),
        (0, [1, 65_535, 65_535, 0]),
        (0, [8_388_608, 549_747_425_280, 65_535, 0]),
        (19, [0; 4]),
        (9, [0; 4]),
        (0, [16_777_216, 1_099_494_785_025, 65_534, 16_711_681]),
    ][case as usize];
    let region: Vec<u8> = (0..len).map(byte).collect();
    let mut picture = vec![u16::MAX; len];
    if case == 6 {
        picture[last] = 0;
    }
    let call = call_of((4096, 4096), &picture, &region);
    expect_answer(group, call, number, results);
}

/// The large pictures of the chains: the region of their rectangles, regions of any
/// samples, and a byte above 1.
pub fn large(group: &mut Group, random: &mut Random) {
    let shape = shots::large_shape(random, group.case as usize);
    let (size, len) = ((shape.w, shape.h), shape.len());
    let picture = any_samples(random, len);
    compare_region(group, size, &picture, &shots::region(&shape));
    let mut region = any_marks(random, len);
    compare_region(group, size, &picture, &region);
    region[random.below(len)] = random.within(2, 255) as u8;
    group.expect_number(call_of(size, &picture, &region), 9, "refusal 9");
}
