//! Accepted arguments: pictures, planes, regions and the streams written from
//! them.

use crate::guarded::held;
use crate::random::Random;

pub const MAGNITUDE_LIMIT: i32 = 1 << 22;

/// Lengths of result arrays: none, fewer, exact and more.
pub const WRITE_RESULTS: [usize; 6] = [0, 1, 2, 3, 4, 9];
pub const BRIGHTNESS_RESULTS: [usize; 7] = [0, 1, 2, 3, 4, 5, 9];
pub const READ_RESULTS: [usize; 8] = [0, 1, 4, 11, 15, 138, 139, 145];
pub const CUT_RESULTS: [usize; 4] = [0, 1, 2, 5];
pub const BODY_RESULTS: [usize; 5] = [0, 1, 2, 3, 6];
pub const HEADER_RESULTS: [usize; 7] = [0, 1, 7, 11, 134, 135, 141];
pub const ARRIVED_RESULTS: [usize; 3] = [0, 1, 4];

/// Sides at the limits and beyond.
pub const LIMIT_SIDES: [(usize, usize); 12] = [
    (4096, 4096),
    (4096, 1),
    (1, 4096),
    (4095, 4095),
    (4097, 1),
    (1, 4097),
    (4097, 4096),
    (0, 0),
    (0, 4096),
    (4096, 0),
    (usize::MAX, 1),
    (1 << 32, 1 << 32), // W·H is 0 in 64 bits
];

/// That both sides are within the limits.
pub fn taken(w: usize, h: usize) -> bool {
    [w, h].iter().all(|side| (1..=4096).contains(side))
}

/// W·H of any sides, or a few where no buffer can be so long.
pub fn limit_len(w: usize, h: usize) -> usize {
    let len = w.wrapping_mul(h);
    if len > 1 << 25 {
        16
    } else {
        len
    }
}

/// What a header says, but for the plane count.
#[derive(Clone)]
pub struct Shape {
    pub kernel: usize,
    pub levels: usize,
    pub depth: usize,
    pub w: usize,
    pub h: usize,
    pub numbers: Vec<u32>,
}

impl Shape {
    pub fn len(&self) -> usize {
        self.w * self.h
    }

    /// How long the picture at level r is.
    pub fn area_len(&self, r: usize) -> usize {
        let (w, h) = area(self.w, self.h, r);
        w * h
    }
}

/// The sides of the area at level r, any r: halved and rounded up r times over.
pub fn area(w: usize, h: usize, r: usize) -> (usize, usize) {
    let side = |side: usize| (0..r.min(64)).fold(side, |side, _| side.div_ceil(2));
    (side(w), side(h))
}

/// What stands in the area at level r of a buffer of W·H cells.
pub fn upper_left<T: Copy>(cells: &[T], shape: &Shape, r: usize) -> Vec<T> {
    let (width, height) = area(shape.w, shape.h, r);
    let rows = cells.chunks(shape.w).take(height);
    rows.flat_map(|row| row[..width].to_vec()).collect()
}

/// Any side up to about the largest. Short sides and multiples of 2^J, which
/// chance would seldom give, are made common.
fn side(random: &mut Random, levels: usize, largest: usize) -> usize {
    match random.below(8) {
        0 => random.pick(&[1, 2, 3, 5]),
        1 | 2 => random.within(1, (largest >> levels).max(1)) << levels,
        _ => random.within(1, largest),
    }
}

/// A panel of 1,366 by 768, halved until it is not above the largest.
fn panel(largest: usize) -> (usize, usize) {
    let (mut w, mut h) = (1366_usize, 768_usize);
    while w > largest {
        (w, h) = (w.div_ceil(2), h.div_ceil(2));
    }
    (w, h)
}

pub fn shape(random: &mut Random, largest: usize) -> Shape {
    let levels = random.within(1, 5);
    let (w, h) = match random.below(8) {
        0 => panel(largest),
        _ => (side(random, levels, largest), side(random, levels, largest)),
    };
    Shape {
        kernel: random.below(4),
        levels,
        depth: random.within(1, 10),
        w,
        h,
        numbers: rectangles(random, w, h),
    }
}

/// Mostly small, now and then wider than a few cache lines.
pub fn common_shape(random: &mut Random) -> Shape {
    let largest = random.pick(&[4, 8, 8, 16, 16, 32, 32, 64, 96]);
    shape(random, largest)
}

/// Large pictures for every kernel: a panel of 1,366 by 768, 512 square, and the
/// longest lines. There are 32.
pub fn large_shape(random: &mut Random, case: usize) -> Shape {
    let (levels, w, h) = match case / 4 {
        0 => (5, 1366, 768),
        1 => (1, 512, 512),
        2 => (5, 4096, 33),
        3 => (5, 31, 4096),
        4 => (1, 4095, 2),
        5 => (1, 3, 4095),
        6 => (5, 4096, 1),
        _ => (5, 1, 4095),
    };
    Shape {
        kernel: case % 4,
        levels,
        depth: random.pick(&[8, 10]),
        w,
        h,
        numbers: rectangles(random, w, h),
    }
}

/// More than 2^20 samples, even and odd sides, every kernel, and a region that marks
/// few coefficients, or all but few: some small rectangles, a thin one over the
/// whole height, all but a thin one. There are 24.
pub fn few_shape(random: &mut Random, case: usize) -> Shape {
    let (w, h) = [(1366, 768), (257, 4095)][case / 12];
    let numbers = match case / 4 % 3 {
        0 => {
            let count = random.pick(&[1, 5, 32]);
            let small = |random: &mut Random| {
                let (x, y) = (random.below(w - 12), random.below(h - 12));
                let (across, down) = (random.within(1, 12), random.within(1, 12));
                [x, y, across, down].map(|number| number as u32)
            };
            (0..count).flat_map(|_| small(random)).collect()
        }
        1 => vec![random.below(w - 4) as u32, 0, 4, h as u32],
        _ => vec![0, 0, (w - random.within(1, 20)) as u32, h as u32],
    };
    Shape {
        kernel: case % 4,
        levels: 5,
        depth: random.pick(&[8, 10]),
        w,
        h,
        numbers,
    }
}

/// At most 64 samples, for cases that try every place of a stream.
pub fn tiny_shape(random: &mut Random) -> Shape {
    let levels = random.pick(&[1, 1, 1, 2, 2, 3, 5]);
    let (w, h) = (random.within(1, 8), random.within(1, 8));
    let mut numbers = rectangles(random, w, h);
    numbers.truncate(4 * random.pick(&[0, 1, 2, 3]));
    Shape {
        kernel: random.below(4),
        levels,
        depth: random.within(1, 10),
        w,
        h,
        numbers,
    }
}

fn rectangle(random: &mut Random, w: usize, h: usize) -> [u32; 4] {
    let x = random.below(w);
    let y = random.below(h);
    let (width, height) = match random.below(4) {
        0 => (1, 1),
        1 => (w - x, h - y),
        _ => (random.within(1, w - x), random.within(1, h - y)),
    };
    [x as u32, y as u32, width as u32, height as u32]
}

/// 0 to 32 rectangles, overlaps allowed.
pub fn rectangles(random: &mut Random, w: usize, h: usize) -> Vec<u32> {
    let count = match random.below(8) {
        0 => 0,
        1..=4 => 1,
        5 => 32,
        _ => random.within(2, 31),
    };
    if count == 1 && random.once_in(8) {
        return vec![0, 0, w as u32, h as u32];
    }
    (0..count).flat_map(|_| rectangle(random, w, h)).collect()
}

/// Samples of a given depth: noise, extremes, a constant, a ramp, few spots.
pub fn samples(random: &mut Random, shape: &Shape) -> Vec<u16> {
    let top = (1 << shape.depth) - 1;
    let style = random.below(6);
    let constant = random.within(0, top);
    let slope = random.below(5);
    (0..shape.len())
        .map(|i| {
            let (x, y) = (i % shape.w, i / shape.w);
            let sample = match style {
                0 | 1 => random.within(0, top),
                2 => random.pick(&[0, top]),
                3 => constant,
                4 => (constant + slope * x + y) % (top + 1),
                _ if random.once_in(16) => random.within(0, top),
                _ => constant,
            };
            sample as u16
        })
        .collect()
}

/// Samples of any sixteen bits: noise, the largest, both ends, dark ones, few spots.
pub fn any_samples(random: &mut Random, len: usize) -> Vec<u16> {
    let style = random.below(6);
    (0..len)
        .map(|_| match style {
            0 | 1 => random.number() as u16,
            2 => u16::MAX,
            3 => random.pick(&[0, u16::MAX]),
            4 => random.below(4) as u16,
            _ if random.once_in(16) => random.number() as u16,
            _ => 0,
        })
        .collect()
}

/// One sample in so many; with 1 all of them.
pub fn any_marks(random: &mut Random, len: usize) -> Vec<u8> {
    let odds = random.pick(&[1, 2, 2, 5, 40, 1_000]);
    (0..len).map(|_| u8::from(random.once_in(odds))).collect()
}

/// Every place of a short buffer, some of a longer one.
pub fn some_places(random: &mut Random, len: usize) -> Vec<usize> {
    if len <= 160 {
        return (0..len).collect();
    }
    let some = (0..6).map(|_| random.below(len));
    [0, len - 1].into_iter().chain(some).collect()
}

/// Signs at random, all alike, or in turn, which lets undone numbers grow.
fn sign(random: &mut Random, style: usize, place: usize) -> i32 {
    let negative = match style {
        0 => true,
        1 => false,
        2 => place % 2 == 1,
        3 => place / 2 % 2 == 1,
        _ => random.once_in(2),
    };
    if negative {
        -1
    } else {
        1
    }
}

/// Accepted coefficients of every magnitude, not only those of pictures.
pub fn plane(random: &mut Random, len: usize) -> Vec<i32> {
    let style = random.below(6);
    let signs = random.below(8);
    let digits = random.within(0, 22);
    let top = MAGNITUDE_LIMIT as usize - 1;
    (0..len)
        .map(|place| {
            let magnitude = match style {
                0 => random.within(0, top),
                1 => top,
                2 if random.once_in(12) => random.within(0, (1 << digits) - 1),
                2 | 3 => 0,
                _ => random.within(0, (1 << digits) - 1) >> random.below(12),
            };
            sign(random, signs, place) * magnitude as i32
        })
        .collect()
}

/// A plane as the transform gives it, or any accepted one.
pub fn some_plane(random: &mut Random, shape: &Shape) -> Vec<i32> {
    if random.once_in(2) {
        return plane(random, shape.len());
    }
    transformed(shape, shape.levels, &samples(random, shape))
}

/// The picture's transform with so many levels, by the reference.
pub fn transformed(shape: &Shape, levels: usize, samples: &[u16]) -> Vec<i32> {
    let mut plane = vec![0; shape.len()];
    let number = reference::transform(
        shape.kernel,
        levels,
        shape.depth,
        shape.w,
        shape.h,
        samples,
        &mut plane,
    );
    assert_eq!(number, 0, "the samples are accepted");
    plane
}

/// The picture at level r of a plane, by the reference.
pub fn picture_at(shape: &Shape, r: usize, plane: &[i32]) -> Vec<i32> {
    let len = shape.area_len(r);
    let (mut undone, mut shown) = (vec![0; len], vec![0; len]);
    let number = reference::show_level(
        shape.kernel,
        shape.levels,
        r,
        shape.depth,
        shape.w,
        shape.h,
        plane,
        &mut undone,
        &mut shown,
    );
    assert_eq!(number, 0, "the plane is accepted");
    undone
}

/// The region of the rectangles, by the reference.
pub fn region(shape: &Shape) -> Vec<u8> {
    let mut region = vec![0; shape.len()];
    let number = reference::region(&shape.numbers, shape.w, shape.h, &mut region);
    assert_eq!(number, 0, "the rectangles are accepted");
    region
}

/// The mask of a region after so many levels, from 1 on, by the reference.
pub fn mask(shape: &Shape, levels: usize, region: &[u8]) -> Vec<u8> {
    let mut mask = vec![0; shape.len()];
    let number = reference::mask(shape.kernel, levels, shape.w, shape.h, region, &mut mask);
    assert_eq!(number, 0, "the region is accepted");
    mask
}

/// Level r's mask of a region, on the area at level r.
pub fn level_mask(shape: &Shape, r: usize, region: &[u8]) -> Vec<u8> {
    match r {
        0 => region.to_vec(),
        _ => upper_left(&mask(shape, r, region), shape, r),
    }
}

/// A written stream with what went into it.
pub struct Written {
    pub shape: Shape,
    pub plane: Vec<i32>,
    pub mask: Vec<u8>,
    pub stream: Vec<u8>,
    pub region_mark: usize,
}

/// The stream as the reference writes it; the library's writer is compared in
/// groups of its own.
pub fn written(shape: Shape, plane: Vec<i32>) -> Written {
    let mut mask = held(shape.len());
    let mut results = [0; 3];
    let mut stream = Vec::new();
    for expected in [11, 0] {
        let number = reference::write(
            &plane,
            &shape.numbers,
            shape.kernel,
            shape.levels,
            shape.depth,
            shape.w,
            shape.h,
            &mut mask,
            &mut stream,
            &mut results,
        );
        assert_eq!(number, expected, "first the needed length, then the stream");
        stream.resize(results[0] as usize, 0);
    }
    Written {
        shape,
        plane,
        mask,
        stream,
        region_mark: results[1] as usize,
    }
}

pub fn some_written(random: &mut Random, shape: Shape) -> Written {
    let plane = some_plane(random, &shape);
    written(shape, plane)
}

/// A tiny stream with few planes more often than not, so that short bodies
/// with cuts inside each part are common.
pub fn tiny_written(random: &mut Random) -> Written {
    let shape = tiny_shape(random);
    let mut plane = some_plane(random, &shape);
    let shift = random.pick(&[0, 0, 8, 14, 19]);
    for c in &mut plane {
        *c = c.signum() * (c.abs() >> shift);
    }
    written(shape, plane)
}

/// Puts the total less 4 into the length field.
pub fn mend(stream: &mut [u8]) {
    let follows = stream.len() as u32 - 4;
    stream[..4].copy_from_slice(&follows.to_be_bytes());
}

fn bits_of(bytes: &[u8]) -> Vec<bool> {
    let bit = |i: usize| bytes[i / 8] >> (7 - i % 8) & 1 == 1;
    (0..8 * bytes.len()).map(bit).collect()
}

fn packed(bits: &[bool]) -> Vec<u8> {
    let byte = |bits: &[bool]| {
        (0..8).fold(0, |byte, i| {
            2 * byte + u8::from(bits.get(i).copied().unwrap_or(false))
        })
    };
    bits.chunks(8).map(byte).collect()
}

/// Bits of the marked and of the unmarked part.
pub fn part_lengths(written: &Written) -> [usize; 2] {
    let planes = written.stream[13] as usize;
    let mut lengths = [0, 0];
    for (&c, &mark) in written.plane.iter().zip(&written.mask) {
        lengths[usize::from(mark == 0)] += planes + usize::from(c != 0);
    }
    lengths
}

/// The same plane under a T larger by `more`: zeros before both parts.
pub fn with_more_planes(written: &Written, more: usize) -> Vec<u8> {
    let start = 14 + 2 * written.shape.numbers.len();
    let [marked, unmarked] = part_lengths(written);
    let bits = bits_of(&written.stream[start..]);
    let marks = written.mask.iter().filter(|&&mark| mark == 1).count();
    let body = [
        vec![false; more * marks],
        bits[..marked].to_vec(),
        vec![false; more * (written.mask.len() - marks)],
        bits[marked..marked + unmarked].to_vec(),
    ]
    .concat();
    let mut stream = written.stream[..start].to_vec();
    stream[13] += more as u8;
    stream.extend(packed(&body));
    mend(&mut stream);
    stream
}
