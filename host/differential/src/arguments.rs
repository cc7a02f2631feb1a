//! The entries without a stream to read: accepted arguments, one wrong
//! argument, several wrong ones (which shows the order of the refusals).

use crate::call::Call;
use crate::group::Group;
use crate::guarded::held;
use crate::levels;
use crate::random::Random;
use crate::shots::{self, Shape, MAGNITUDE_LIMIT};

/// The arguments of all these entries, accepted until something is spoiled.
struct Setup {
    shape: Shape,
    q: usize,
    samples: Vec<u16>,
    /// A picture of any sixteen bits a sample.
    picture: Vec<u16>,
    plane: Vec<i32>,
    undone: Vec<i32>,
    region: Vec<u8>,
    mask: Vec<u8>,
    /// Joined with the region.
    second: Vec<u8>,
    /// Length of the output buffer of W·H elements.
    out_len: usize,
    /// Level of the picture that is shown, and the lengths of its two buffers.
    r: usize,
    undone_len: usize,
    shown_len: usize,
    stream_len: usize,
    results_len: usize,
}

fn mark_bytes(random: &mut Random, len: usize) -> Vec<u8> {
    let odds = random.pick(&[1, 2, 5, 40]);
    (0..len).map(|_| u8::from(random.once_in(odds))).collect()
}

fn any_numbers(random: &mut Random, len: usize) -> Vec<i32> {
    let shift = random.below(32);
    (0..len)
        .map(|_| match random.below(20) {
            0 => random.pick(&[i32::MIN, i32::MAX, -1, 0, 1]),
            _ => random.number() as i32 >> shift,
        })
        .collect()
}

fn setup(random: &mut Random, shape: Shape) -> Setup {
    let len = shape.len();
    let r = random.within(0, shape.levels);
    Setup {
        q: random.within(0, 22),
        samples: shots::samples(random, &shape),
        picture: shots::any_samples(random, len),
        plane: shots::some_plane(random, &shape),
        undone: any_numbers(random, len),
        region: mark_bytes(random, len),
        mask: mark_bytes(random, len),
        second: mark_bytes(random, len),
        out_len: len,
        r,
        undone_len: shape.area_len(r),
        shown_len: shape.area_len(r),
        stream_len: stream_len(random, &shape),
        results_len: random.pick(&shots::WRITE_RESULTS),
        shape,
    }
}

/// Long enough for any body, now and then too short.
fn stream_len(random: &mut Random, shape: &Shape) -> usize {
    let enough = 14 + 2 * shape.numbers.len() + 3 * shape.len();
    match random.below(8) {
        0 => random.below(enough),
        1 => random.below(15),
        _ => enough,
    }
}

/// Builds the call of one entry.
type Entry = fn(&Setup) -> Call;

fn region(setup: &Setup) -> Call {
    Call::Region {
        numbers: setup.shape.numbers.clone(),
        w: setup.shape.w,
        h: setup.shape.h,
        region: held(setup.out_len),
    }
}

fn mask(setup: &Setup) -> Call {
    Call::Mask {
        kernel: setup.shape.kernel,
        levels: setup.shape.levels,
        w: setup.shape.w,
        h: setup.shape.h,
        region: setup.region.clone(),
        mask: held(setup.out_len),
    }
}

fn join(setup: &Setup) -> Call {
    Call::Join {
        w: setup.shape.w,
        h: setup.shape.h,
        first: setup.region.clone(),
        second: setup.second.clone(),
        joined: held(setup.out_len),
    }
}

fn transform(setup: &Setup) -> Call {
    Call::Transform {
        kernel: setup.shape.kernel,
        levels: setup.shape.levels,
        depth: setup.shape.depth,
        w: setup.shape.w,
        h: setup.shape.h,
        samples: setup.samples.clone(),
        plane: held(setup.out_len),
    }
}

fn undo(setup: &Setup) -> Call {
    Call::Undo {
        kernel: setup.shape.kernel,
        levels: setup.shape.levels,
        w: setup.shape.w,
        h: setup.shape.h,
        plane: setup.plane.clone(),
        undone: held(setup.out_len),
    }
}

fn show(setup: &Setup) -> Call {
    Call::Show {
        depth: setup.shape.depth,
        w: setup.shape.w,
        h: setup.shape.h,
        undone: setup.undone.clone(),
        shown: held(setup.out_len),
    }
}

fn show_level(setup: &Setup) -> Call {
    Call::ShowLevel {
        kernel: setup.shape.kernel,
        levels: setup.shape.levels,
        r: setup.r,
        depth: setup.shape.depth,
        w: setup.shape.w,
        h: setup.shape.h,
        plane: setup.plane.clone(),
        undone: held(setup.undone_len),
        shown: held(setup.shown_len),
    }
}

fn brightness(setup: &Setup) -> Call {
    Call::Brightness {
        w: setup.shape.w,
        h: setup.shape.h,
        picture: setup.picture.clone(),
        region: setup.region.clone(),
        results: held(setup.results_len),
    }
}

fn truncate(setup: &Setup) -> Call {
    Call::Truncate {
        q: setup.q,
        w: setup.shape.w,
        h: setup.shape.h,
        mask: setup.mask.clone(),
        plane: setup.plane.clone(),
    }
}

fn write(setup: &Setup) -> Call {
    Call::Write {
        plane: setup.plane.clone(),
        numbers: setup.shape.numbers.clone(),
        kernel: setup.shape.kernel,
        levels: setup.shape.levels,
        depth: setup.shape.depth,
        w: setup.shape.w,
        h: setup.shape.h,
        mask: held(setup.out_len),
        stream: held(setup.stream_len),
        results: held(setup.results_len),
    }
}

const TOP: usize = usize::MAX;
const WRONG_KERNELS: [usize; 9] = [4, 5, 255, 256, 300, 1 << 32, (1 << 32) + 1, 1 << 63, TOP];
const WRONG_LEVELS: [usize; 9] = [0, 6, 7, 63, 64, 256 + 1, (1 << 32) + 1, 1 << 63, TOP];
/// Above every J; J + 1, which may be smaller, is made from J.
const WRONG_R: [usize; 8] = [6, 7, 63, 64, 256, 1 << 32, 1 << 63, TOP];
const WRONG_DEPTHS: [usize; 9] = [0, 11, 12, 16, 32, 256 + 8, (1 << 32) + 8, 1 << 63, TOP];
const WRONG_PLANES: [usize; 8] = [23, 24, 31, 32, 64, 1 << 32, 1 << 63, TOP];
/// Sides outside the limits, and some inside that are seldom the buffers' own.
const WRONG_SIDES: [usize; 16] = [
    0,
    1,
    33,
    4095,
    4096,
    4097,
    4098,
    4128,
    1 << 16,
    (1 << 16) + 32,
    1 << 32,
    (1 << 32) + 32,
    1 << 40,
    1 << 63,
    (1 << 63) + 32,
    TOP,
];
const WRONG_MAGNITUDES: [i32; 7] = [
    MAGNITUDE_LIMIT,
    -MAGNITUDE_LIMIT,
    MAGNITUDE_LIMIT + 1,
    -MAGNITUDE_LIMIT - 1,
    i32::MAX,
    i32::MIN,
    i32::MIN + 1,
];

fn wrong_side(random: &mut Random, side: usize) -> usize {
    match random.below(6) {
        0 => side.wrapping_add(1),
        1 => side.wrapping_sub(1),
        _ => random.pick(&WRONG_SIDES),
    }
}

fn wrong_length(random: &mut Random, len: usize) -> usize {
    match random.below(5) {
        0 => 0,
        1 => len + 1,
        2 => len + random.within(1, 70),
        3 => 1,
        _ => len.saturating_sub(1),
    }
}

fn put_somewhere<T: Copy>(random: &mut Random, buffer: &mut [T], element: T) {
    if buffer.is_empty() {
        return;
    }
    let last = buffer.len() - 1;
    let place = match random.below(4) {
        0 => 0,
        1 => last,
        _ => random.within(0, last),
    };
    buffer[place] = element;
}

/// Puts a wrong rectangle into the list.
fn spoil_rectangle(random: &mut Random, shape: &mut Shape, wrong: [u32; 4]) {
    if shape.numbers.len() < 4 || (shape.numbers.len() < 128 && random.once_in(2)) {
        shape.numbers.extend(wrong);
    } else {
        let place = 4 * random.below(shape.numbers.len() / 4);
        shape.numbers[place..place + 4].copy_from_slice(&wrong);
    }
}

/// Empty, just outside, far outside, and sums that come round to small ones.
fn wrong_rectangle(random: &mut Random, w: usize, h: usize) -> [u32; 4] {
    let (w, h) = (w as u32, h as u32);
    let inside = random.below(w.max(1) as usize) as u32;
    let mut rectangle = match random.below(12) {
        0 => [inside, 0, 0, 1],
        1 => [w, 0, 0, 1],
        2 => [0, 0, 0, 0],
        3 => [w, 0, 1, 1],
        4 => [inside, 0, w.wrapping_sub(inside).wrapping_add(1), 1],
        5 => [u32::MAX, 0, 1, 1],
        6 => [u32::MAX, 0, 2, 1],
        7 => [u32::MAX - inside, 0, inside + 2, 1],
        8 => [inside, 0, u32::MAX, 1],
        9 => [inside, 0, u32::MAX - inside + 1, 1],
        10 => [(1 << 16) + inside, 0, 1, 1],
        _ => [inside, 0, (1 << 16) + 1, 1],
    };
    // The same for y and height, whose limit may be another.
    if random.once_in(2) {
        rectangle = [rectangle[1], rectangle[0], rectangle[3], rectangle[2]];
        if rectangle[1] == w {
            rectangle[1] = h;
        }
    }
    rectangle
}

/// Kinds of spoiling, by number.
const KINDS: usize = 29;

fn spoil(random: &mut Random, setup: &mut Setup, kind: usize) {
    let shape = &mut setup.shape;
    match kind {
        0 => shape.kernel = random.pick(&WRONG_KERNELS),
        1 => shape.levels = random.pick(&WRONG_LEVELS),
        2 => shape.depth = random.pick(&WRONG_DEPTHS),
        3 => setup.q = random.pick(&WRONG_PLANES),
        4 => shape.w = wrong_side(random, shape.w),
        5 => shape.h = wrong_side(random, shape.h),
        6 => {
            let len = wrong_length(random, setup.plane.len());
            setup.samples.resize(len, 0);
            setup.picture.resize(len, 0);
            setup.plane.resize(len, 0);
            setup.undone.resize(len, 0);
            setup.region.resize(len, 0);
        }
        7 => {
            let len = wrong_length(random, setup.out_len);
            setup.out_len = len;
            setup.mask.resize(len, 0);
        }
        8 => {
            let limit = 1 << shape.depth.min(15);
            let sample = random.pick(&[limit, limit + 1, u16::MAX]);
            put_somewhere(random, &mut setup.samples, sample);
        }
        9 => {
            let byte = random.pick(&[2, 3, 128, 255]);
            put_somewhere(random, &mut setup.region, byte);
        }
        10 => {
            let byte = random.pick(&[2, 3, 128, 255]);
            put_somewhere(random, &mut setup.mask, byte);
        }
        11 => {
            let magnitude = random.pick(&WRONG_MAGNITUDES);
            put_somewhere(random, &mut setup.plane, magnitude);
        }
        12 => {
            let more = random.within(1, 3);
            let len = shape.numbers.len() + more;
            shape.numbers.resize(len, 1);
        }
        13 => {
            let count = random.pick(&[33, 34, 64, 256, 288]);
            shape.numbers = [0, 0, 1, 1].repeat(count);
        }
        14 | 15 => {
            let wrong = wrong_rectangle(random, shape.w, shape.h);
            spoil_rectangle(random, shape, wrong);
        }
        16 => setup.stream_len = random.below(setup.stream_len + 1),
        17 => {
            // W and H exchanged: accepted lengths, another picture.
            (shape.w, shape.h) = (shape.h, shape.w);
        }
        18..=22 => spoil_level(random, setup, kind),
        23..=25 => spoil_second(random, setup, kind),
        _ => spoil_brightness(random, setup, kind),
    }
}

/// What only joining has: a second buffer of marks.
fn spoil_second(random: &mut Random, setup: &mut Setup, kind: usize) {
    if kind == 23 {
        let len = wrong_length(random, setup.second.len());
        setup.second.resize(len, 0);
        return;
    }
    let byte = random.within(2, 255) as u8;
    put_somewhere(random, &mut setup.second, byte);
    if kind == 25 {
        put_somewhere(random, &mut setup.region, byte);
    }
}

/// What brightness has: picture and region of lengths of their own, and a region that
/// must have a sample.
fn spoil_brightness(random: &mut Random, setup: &mut Setup, kind: usize) {
    match kind {
        26 => {
            let len = wrong_length(random, setup.picture.len());
            setup.picture.resize(len, 0);
        }
        27 => {
            let len = wrong_length(random, setup.region.len());
            setup.region.resize(len, 0);
        }
        _ => setup.region.fill(0),
    }
}

/// What only the picture at level r has.
fn spoil_level(random: &mut Random, setup: &mut Setup, kind: usize) {
    match kind {
        18 if random.once_in(2) => setup.r = setup.shape.levels.wrapping_add(1),
        18 => setup.r = random.pick(&WRONG_R),
        // Another level, mostly with other lengths.
        19 => setup.r = random.within(0, 5),
        20 => setup.undone_len = wrong_area_length(random, setup.undone_len, setup.out_len),
        21 => setup.shown_len = wrong_area_length(random, setup.shown_len, setup.out_len),
        _ => {
            // As long as the whole picture.
            (setup.undone_len, setup.shown_len) = (setup.out_len, setup.out_len);
        }
    }
}

/// Near the area's length, or near the picture's.
fn wrong_area_length(random: &mut Random, area: usize, len: usize) -> usize {
    match random.below(6) {
        0 => len,
        1 => len + 1,
        2 => len.saturating_sub(1),
        _ => wrong_length(random, area),
    }
}

fn accepted(group: &mut Group, random: &mut Random, entry: Entry) {
    let shape = shots::common_shape(random);
    group.compare(entry(&setup(random, shape)));
}

fn one_wrong(group: &mut Group, random: &mut Random, entry: Entry) {
    let shape = shots::shape(random, 16);
    let mut setup = setup(random, shape);
    spoil(random, &mut setup, group.case as usize % KINDS);
    group.compare(entry(&setup));
}

fn several_wrong(group: &mut Group, random: &mut Random, entry: Entry) {
    let shape = shots::shape(random, 16);
    let mut setup = setup(random, shape);
    for _ in 0..random.within(2, 6) {
        let kind = random.below(KINDS);
        spoil(random, &mut setup, kind);
    }
    group.compare(entry(&setup));
}

/// The three groups of one entry.
macro_rules! groups {
    ($entry:ident) => {
        pub mod $entry {
            use super::*;
            pub fn accepted(group: &mut Group, random: &mut Random) {
                super::accepted(group, random, super::$entry);
            }
            pub fn one_wrong(group: &mut Group, random: &mut Random) {
                super::one_wrong(group, random, super::$entry);
            }
            pub fn several_wrong(group: &mut Group, random: &mut Random) {
                super::several_wrong(group, random, super::$entry);
            }
        }
    };
}

groups!(region);
groups!(mask);
groups!(join);
groups!(transform);
groups!(undo);
groups!(show);
groups!(show_level);
groups!(brightness);
groups!(truncate);
groups!(write);

/// Every size to 40 by 40, through every entry.
pub fn every_size(group: &mut Group, random: &mut Random) {
    let case = group.case as usize;
    let (w, h) = (1 + case % 40, 1 + case / 40);
    let shape = Shape {
        kernel: random.below(4),
        levels: random.within(1, 5),
        depth: random.within(1, 10),
        w,
        h,
        numbers: shots::rectangles(random, w, h),
    };
    let setup = setup(random, shape);
    for entry in [
        region, mask, join, transform, undo, show, show_level, brightness, truncate, write,
    ] {
        group.compare(entry(&setup));
    }
}

/// The region that a case's bits are, for every kernel, at one to `deepest`
/// levels.
fn small_region(group: &mut Group, w: usize, h: usize, deepest: usize) {
    let bits = group.case;
    let region: Vec<u8> = (0..w * h).map(|i| (bits >> i & 1) as u8).collect();
    for kernel in 0..4 {
        for levels in 1..=deepest {
            group.compare(Call::Mask {
                kernel,
                levels,
                w,
                h,
                region: region.clone(),
                mask: held(w * h),
            });
        }
    }
}

/// Every region of 4 by 4 samples.
pub fn every_small_region(group: &mut Group, _: &mut Random) {
    small_region(group, 4, 4, 2);
}

/// Every region of 5 by 3 samples, to the level that leaves one sample.
pub fn every_odd_region(group: &mut Group, _: &mut Random) {
    small_region(group, 5, 3, 3);
}

/// The picture of samples from 0 to 3 steps that a case's digits are, and that
/// plane of coefficients from −2 steps to 1, for every kernel.
fn small_plane(group: &mut Group, w: usize, h: usize, step: u16) {
    let digits = group.case;
    let digit = |i: usize| (digits >> (2 * i) & 3) as u16;
    let samples: Vec<u16> = (0..w * h).map(|i| digit(i) * step).collect();
    let coefficient = |&sample: &u16| i32::from(sample) - 2 * i32::from(step);
    let plane: Vec<i32> = samples.iter().map(coefficient).collect();
    for kernel in 0..4 {
        group.compare(Call::Transform {
            kernel,
            levels: 1,
            depth: (3 * step).ilog2() as usize + 1,
            w,
            h,
            samples: samples.clone(),
            plane: held(w * h),
        });
        group.compare(Call::Undo {
            kernel,
            levels: 1,
            w,
            h,
            plane: plane.clone(),
            undone: held(w * h),
        });
    }
}

/// Every such plane of 4 by 2.
pub fn every_small_plane(group: &mut Group, _: &mut Random) {
    small_plane(group, 4, 2, 1);
}

/// Every such row and column of 7.
pub fn every_odd_line(group: &mut Group, _: &mut Random) {
    small_plane(group, 7, 1, 1);
    small_plane(group, 1, 7, 1);
}

/// Every such row and column of at most 6, from black to white: up to three
/// lows, so that each number has both ends near.
pub fn every_short_line(group: &mut Group, _: &mut Random) {
    let digits = group.case;
    for n in (1..=6).filter(|&n| digits >> (2 * n) == 0) {
        small_plane(group, n, 1, 341);
        small_plane(group, 1, n, 341);
    }
}

/// The writer with every length of the stream buffer and of the results.
pub fn every_stream_buffer(group: &mut Group, random: &mut Random) {
    let written = shots::tiny_written(random);
    for stream_len in 0..written.stream.len() + 3 {
        group.compare(Call::Write {
            plane: written.plane.clone(),
            numbers: written.shape.numbers.clone(),
            kernel: written.shape.kernel,
            levels: written.shape.levels,
            depth: written.shape.depth,
            w: written.shape.w,
            h: written.shape.h,
            mask: held(written.shape.len()),
            stream: held(stream_len),
            results: held(stream_len % 5),
        });
    }
}

/// The sign in which each coefficient alone moves the number at one place of
/// the picture at level r.
fn signs(shape: &Shape, r: usize, place: usize) -> Vec<i32> {
    let mut plane = vec![0; shape.len()];
    let mut signs = Vec::new();
    for i in 0..shape.len() {
        plane[i] = 1 << 20;
        signs.push(shots::picture_at(shape, r, &plane)[place].signum());
        plane[i] = 0;
    }
    signs
}

/// The accepted planes whose number at one place, undone wholly or to some
/// level r, is about as far from 0 as any: each coefficient takes the largest
/// magnitude with the sign in which it alone moves that number.
pub fn greatest_growth(group: &mut Group, random: &mut Random) {
    let case = group.case as usize;
    let levels = 1 + case / 4 % 5;
    // The second kind of side is odd at every level.
    let side = [2 << levels, (1 << levels) + 1][case / 20 % 2];
    let shape = Shape {
        kernel: case % 4,
        levels,
        depth: 10,
        w: side,
        h: side,
        numbers: Vec::new(),
    };
    for r in [0, random.within(1, levels)] {
        let place = random.below(shape.area_len(r));
        let signs = signs(&shape, r, place);
        for top in [MAGNITUDE_LIMIT - 1, 1 - MAGNITUDE_LIMIT] {
            let plane: Vec<i32> = signs.iter().map(|sign| sign * top).collect();
            if r == 0 {
                group.compare(levels::undo_call(&shape, &plane));
            }
            group.compare(levels::level_call(&shape, r, &plane));
        }
    }
}
