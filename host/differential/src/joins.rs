//! Regions and masks joined: beside the reference's, and the mask of two regions
//! joined beside their two masks joined.

use crate::call::Call;
use crate::group::Group;
use crate::guarded::held;
use crate::random::Random;
use crate::shots::{self, any_marks, some_places, Shape, LIMIT_SIDES};

pub fn join_call((w, h): (usize, usize), first: &[u8], second: &[u8], joined: usize) -> Call {
    Call::Join {
        w,
        h,
        first: first.to_vec(),
        second: second.to_vec(),
        joined: held(joined),
    }
}

/// Makes a call that must be accepted, and gives the bytes that it wrote.
fn accepted(group: &mut Group, call: Call) -> Vec<u8> {
    let (number, answer) = group.compare(call.clone());
    group.expect(number == 0, &call, "accepted");
    match answer {
        Call::Region { region, .. } => region,
        Call::Mask { mask, .. } => mask,
        Call::Join { joined, .. } => joined,
        _ => unreachable!("a call that gives marks"),
    }
}

fn joined(group: &mut Group, shape: &Shape, first: &[u8], second: &[u8]) -> Vec<u8> {
    let call = join_call((shape.w, shape.h), first, second, shape.len());
    accepted(group, call)
}

fn region_of(group: &mut Group, shape: &Shape, numbers: &[u32]) -> Vec<u8> {
    let call = Call::Region {
        numbers: numbers.to_vec(),
        w: shape.w,
        h: shape.h,
        region: held(shape.len()),
    };
    accepted(group, call)
}

fn mask_call(shape: &Shape, region: &[u8]) -> Call {
    Call::Mask {
        kernel: shape.kernel,
        levels: shape.levels,
        w: shape.w,
        h: shape.h,
        region: region.to_vec(),
        mask: held(shape.len()),
    }
}

fn mask_of(group: &mut Group, shape: &Shape, region: &[u8]) -> Vec<u8> {
    accepted(group, mask_call(shape, region))
}

/// That the mask of two regions joined is their two masks joined, in either
/// order.
fn masks_of_joined(group: &mut Group, shape: &Shape, first: &[u8], second: &[u8]) {
    let both = joined(group, shape, first, second);
    let [a, b] = [first, second].map(|region| mask_of(group, shape, region));
    let masks = [(&a, &b), (&b, &a)].map(|(a, b)| joined(group, shape, a, b));
    let mask = mask_of(group, shape, &both);
    group.expect(
        masks.iter().all(|joined| *joined == mask),
        &mask_call(shape, &both),
        "the mask of two regions joined is their two masks joined",
    );
}

/// The same with every kernel and J.
fn every_mask(group: &mut Group, (w, h): (usize, usize), first: &[u8], second: &[u8]) {
    for (kernel, levels) in (0..4).flat_map(|k| (1..=5).map(move |j| (k, j))) {
        let shape = Shape {
            kernel,
            levels,
            depth: 8,
            w,
            h,
            numbers: Vec::new(),
        };
        masks_of_joined(group, &shape, first, second);
    }
}

/// Sides at the limits and beyond, with buffers as long as W·H where there can be
/// any, and wrong bytes behind a wrong side.
pub fn sides(group: &mut Group, random: &mut Random) {
    let (w, h) = LIMIT_SIDES[group.case as usize];
    let (taken, len) = (shots::taken(w, h), shots::limit_len(w, h));
    let (mut first, second) = (any_marks(random, len), any_marks(random, len));
    if !taken && len > 0 {
        first[len - 1] = 2;
    }
    let expected = if taken { 0 } else { 4 };
    let call = join_call((w, h), &first, &second, len);
    group.expect_number(call, expected, "0 or 4 by the sides alone");
}

/// Each of the three buffers empty, one too short, right and one too long, with
/// bytes in order and without.
pub fn buffer_lengths(group: &mut Group, random: &mut Random) {
    let shape = shots::tiny_shape(random);
    let (size, len) = ((shape.w, shape.h), shape.len());
    let near = [0, len - 1, len, len + 1];
    let good = any_marks(random, len + 1);
    let bad = vec![random.within(2, 255) as u8; len + 1];
    for i in 0..64 {
        let [a, b, c] = [i % 4, i / 4 % 4, i / 16].map(|i| near[i]);
        for (first, second) in [(&good, &good), (&good, &bad), (&bad, &good), (&bad, &bad)] {
            let expected = match [a, b, c] == [len; 3] {
                false => 5,
                true if *first == bad || *second == bad => 9,
                true => 0,
            };
            let call = join_call(size, &first[..a], &second[..b], c);
            group.expect_number(call, expected, "0, 5 or 9 under its condition alone");
        }
    }
}

/// Any byte above 1 at every place, and every byte above 1 at some place: in the
/// first, in the second and in both.
pub fn every_wrong_byte(group: &mut Group, random: &mut Random) {
    let shape = shots::tiny_shape(random);
    let (size, len) = ((shape.w, shape.h), shape.len());
    let [first, second] = [0; 2].map(|_| any_marks(random, len));
    let places = (0..len).map(|place| (place, random.within(2, 255) as u8));
    let mut wrong: Vec<(usize, u8)> = places.collect();
    wrong.extend((2..=255).map(|byte| (random.below(len), byte)));
    for (place, byte) in wrong {
        let [mut a, mut b] = [first.clone(), second.clone()];
        (a[place], b[place]) = (byte, byte);
        for (first, second) in [(&a, &second), (&first, &b), (&a, &b)] {
            let call = join_call(size, first, second, len);
            group.expect_number(call, 9, "refusal 9");
        }
    }
}

/// Refused with one byte at all places: in the first, in the second and in both. A
/// sum or a count of so many could come round to 0.
fn all_wrong(group: &mut Group, size: (usize, usize), good: &[u8], byte: u8) {
    let bad = vec![byte; good.len()];
    for (first, second) in [(&bad[..], good), (good, &bad), (&bad, &bad)] {
        let call = join_call(size, first, second, good.len());
        group.expect_number(call, 9, "refusal 9");
    }
}

/// Rows and columns of every length, which meet any count that the library takes
/// at a time, and what is left of it: accepted, with one byte above 1, and with all.
pub fn every_length(group: &mut Group, random: &mut Random) {
    let len = group.case as usize + 1;
    for size in [(len, 1), (1, len)] {
        let [first, second] = [0; 2].map(|_| any_marks(random, len));
        group.compare(join_call(size, &first, &second, len));
        let byte = random.within(2, 255) as u8;
        for place in some_places(random, len) {
            for buffer in 0..2 {
                let mut bytes = [first.clone(), second.clone()];
                bytes[buffer][place] = byte;
                let call = join_call(size, &bytes[0], &bytes[1], len);
                group.expect_number(call, 9, "refusal 9");
            }
        }
        all_wrong(group, size, &first, byte);
    }
}

/// Every two regions of 3 by 2 and of 2 by 3, with every kernel and J.
pub fn every_two_regions(group: &mut Group, _: &mut Random) {
    let bits = group.case;
    let region = |from: u64| (0..6).map(move |i| (bits >> (from + i) & 1) as u8);
    let [first, second] = [0, 6].map(|from| region(from).collect::<Vec<u8>>());
    every_mask(group, (3, 2), &first, &second);
    every_mask(group, (2, 3), &first, &second);
}

/// Every size to 20 by 20 with every kernel and J: regions of any samples, and the
/// joining itself without order, with the same and with none.
pub fn every_setting(group: &mut Group, random: &mut Random) {
    let case = group.case as usize;
    let size = (1 + case % 20, 1 + case / 20);
    let len = size.0 * size.1;
    let [first, second] = [0; 2].map(|_| any_marks(random, len));
    every_mask(group, size, &first, &second);
    let none = vec![0; len];
    for (other, fact) in [
        (&first, "a region joined with itself stays"),
        (&none, "a region joined with the empty one stays"),
    ] {
        let call = join_call(size, &first, other, len);
        let joined = accepted(group, call.clone());
        group.expect(joined == first, &call, fact);
    }
}

/// The region and the mask of a list of rectangles, by adding one at a time to
/// none.
fn add_rectangles(group: &mut Group, shape: &Shape) {
    let none = vec![0; shape.len()];
    let (mut region, mut mask) = (none.clone(), mask_of(group, shape, &none));
    group.expect(mask == none, &mask_call(shape, &none), "none is marked");
    for rectangle in shape.numbers.chunks(4) {
        let own = region_of(group, shape, rectangle);
        let own_mask = mask_of(group, shape, &own);
        region = joined(group, shape, &region, &own);
        mask = joined(group, shape, &mask, &own_mask);
    }
    let all = region_of(group, shape, &shape.numbers);
    let call = mask_call(shape, &all);
    group.expect(region == all, &call, "the region of all, joined one by one");
    let all_mask = accepted(group, call.clone());
    group.expect(
        mask == all_mask,
        &call,
        "the mask of all, joined one by one",
    );
}

pub fn a_rectangle_at_a_time(group: &mut Group, random: &mut Random) {
    let shape = shots::common_shape(random);
    add_rectangles(group, &shape);
}

/// The large pictures of the chains: two lists of rectangles, regions of any
/// samples, and bytes above 1.
pub fn large(group: &mut Group, random: &mut Random) {
    let shape = shots::large_shape(random, group.case as usize);
    let at = 4 * random.within(0, shape.numbers.len() / 4);
    let lists = [&shape.numbers[..at], &shape.numbers[at..]];
    let [first, second] = lists.map(|list| region_of(group, &shape, list));
    masks_of_joined(group, &shape, &first, &second);
    let all = region_of(group, &shape, &shape.numbers);
    let call = join_call((shape.w, shape.h), &first, &second, shape.len());
    let joined = accepted(group, call.clone());
    group.expect(joined == all, &call, "the region of both lists");
    let [first, second] = [0; 2].map(|_| any_marks(random, shape.len()));
    masks_of_joined(group, &shape, &first, &second);
    let byte = random.pick(&[2, 3, 4, 16, 64, 128, 254, 255]);
    all_wrong(group, (shape.w, shape.h), &first, byte);
}
