//! The brightness of a region: worked values, the law of quotient and remainder,
//! regions that add up, and every refusal in its place.

mod common;

use common::{joined, region_of_bits, sizes, Noise};

/// Number, sum, quotient and remainder of a call that must be accepted.
fn brightness((w, h): (usize, usize), picture: &[u16], region: &[u8]) -> [u64; 4] {
    let mut results = [99; 4];
    let number = reference::brightness(w, h, picture, region, &mut results);
    assert_eq!(number, 0, "{w} by {h}");
    results
}

/// The number of a call; under a refusal its four results are 0.
fn number_of(w: usize, h: usize, picture: &[u16], region: &[u8]) -> u64 {
    let mut results = [99; 5];
    let number = reference::brightness(w, h, picture, region, &mut results);
    assert_eq!(results[4], 99, "a cell behind the results");
    assert!(
        number == 0 || results[..4] == [0; 4],
        "refusal {number} gave {results:?}"
    );
    number
}

const PICTURE: [u16; 9] = [10, 7, 49, 4, 4, 1, 20, 9, 30];

#[test]
fn worked_values() {
    for (region, expected) in [
        ("100000000", [1, 10, 10, 0]),  // 10 = 10 · 1
        ("111000000", [3, 66, 22, 0]),  // 10 + 7 + 49 = 66 = 22 · 3
        ("010010010", [3, 20, 6, 2]),   // 7 + 4 + 9 = 20 = 6 · 3 + 2
        ("101000101", [4, 109, 27, 1]), // 10 + 49 + 20 + 30 = 109 = 27 · 4 + 1
        ("000011000", [2, 5, 2, 1]),    // 4 + 1 = 5 = 2 · 2 + 1
        ("000001000", [1, 1, 1, 0]),    // 1 = 1 · 1
        ("111111111", [9, 134, 14, 8]), // 66 + 9 + 59 = 134 = 14 · 9 + 8
    ] {
        let bytes: Vec<u8> = region.bytes().map(|c| c - b'0').collect();
        for size in [(3, 3), (9, 1), (1, 9)] {
            assert_eq!(brightness(size, &PICTURE, &bytes), expected, "{region}");
        }
    }
}

/// No depth is given: any sixteen bits are a sample.
#[test]
fn samples_above_every_depth() {
    let picture = [65_535, 65_534, 0, 1_024];
    for (region, expected) in [
        ([1, 1, 0, 0], [2, 131_069, 65_534, 1]), // 131,069 = 65,534 · 2 + 1
        ([1, 0, 1, 0], [2, 65_535, 32_767, 1]),  // 65,535 = 32,767 · 2 + 1
        ([0, 0, 1, 0], [1, 0, 0, 0]),
        ([1, 1, 1, 1], [4, 132_093, 33_023, 1]), // 132,093 = 33,023 · 4 + 1
    ] {
        assert_eq!(brightness((2, 2), &picture, &region), expected);
    }
}

/// 65,537 · 65,535 is 2^32 − 1; with a further sample of 1 the sum is 2^32, which
/// is 65,534 · 65,538 + 4.
#[test]
fn sums_around_32_bits() {
    let (size, len) = ((4_096, 17), 4_096 * 17);
    let mut picture = vec![65_535; len];
    picture[65_537] = 1;
    let region = |count: usize| (0..len).map(|i| u8::from(i < count)).collect::<Vec<u8>>();
    let below = brightness(size, &picture, &region(65_537));
    assert_eq!(below, [65_537, 4_294_967_295, 65_535, 0]);
    let above = brightness(size, &picture, &region(65_538));
    assert_eq!(above, [65_538, 4_294_967_296, 65_534, 4]);
}

/// 16,777,216 samples of 65,535 each. With the last one 0 the sum is 65,535 less:
/// 65,534 · 16,777,216, and 16,777,216 − 65,535 is left.
#[test]
fn the_largest_sum() {
    let (size, len) = ((4_096, 4_096), 16_777_216);
    let (mut picture, region) = (vec![65_535; len], vec![1; len]);
    let all = brightness(size, &picture, &region);
    assert_eq!(all, [16_777_216, 1_099_494_850_560, 65_535, 0]);
    picture[len - 1] = 0;
    let less = brightness(size, &picture, &region);
    assert_eq!(less, [16_777_216, 1_099_494_785_025, 65_534, 16_711_681]);
}

/// That number and sum are those of the samples taken one by one, and that quotient
/// and remainder are of their division.
fn check((w, h): (usize, usize), picture: &[u16], region: &[u8]) -> [u64; 4] {
    let results = brightness((w, h), picture, region);
    let [number, sum, quotient, remainder] = results;
    let (mut counted, mut added) = (0, 0);
    for (&sample, &byte) in picture.iter().zip(region) {
        counted += u64::from(byte);
        added += u64::from(byte) * u64::from(sample);
    }
    assert_eq!([number, sum], [counted, added], "{w} by {h}, {region:?}");
    assert!(remainder < number, "{w} by {h}, {region:?}");
    assert_eq!(quotient * number + remainder, sum, "{w} by {h}");
    results
}

/// Sparse, dense and full regions of any picture.
#[test]
fn quotient_and_remainder() {
    let mut noise = Noise(1);
    for (w, h) in sizes() {
        for odds in [1, 2, 5, 40] {
            let picture = noise.samples(w * h);
            let mut region = noise.region((w, h), odds);
            region[noise.below(w * h)] = 1;
            check((w, h), &picture, &region);
        }
    }
}

/// Every region of 4 by 3 that has a sample.
#[test]
fn every_small_region() {
    let picture = Noise(2).samples(12);
    for bits in 1..1 << 12 {
        check((4, 3), &picture, &region_of_bits(bits, 12));
    }
}

/// One sample is its own sum and quotient, wherever it is.
#[test]
fn regions_of_one_sample_of_all_and_of_none() {
    let mut noise = Noise(3);
    for (w, h) in sizes() {
        let picture = noise.samples(w * h);
        let mut region = vec![0; w * h];
        for (place, &sample) in picture.iter().enumerate() {
            region[place] = 1;
            let sample = u64::from(sample);
            assert_eq!(
                brightness((w, h), &picture, &region),
                [1, sample, sample, 0]
            );
            region[place] = 0;
        }
        assert_eq!(number_of(w, h, &picture, &region), 19);
        let [number, ..] = check((w, h), &picture, &vec![1; w * h]);
        assert_eq!(number, (w * h) as u64);
    }
}

/// Two regions without a common sample, and both joined.
fn check_added((w, h): (usize, usize), picture: &[u16], a: &[u8], b: &[u8]) {
    let both = brightness((w, h), picture, &joined((w, h), a, b));
    let [a, b] = [a, b].map(|region| brightness((w, h), picture, region));
    assert_eq!(both[0], a[0] + b[0], "{w} by {h}");
    assert_eq!(both[1], a[1] + b[1], "{w} by {h}");
}

#[test]
fn regions_apart_add_up() {
    let mut noise = Noise(4);
    for (w, h) in sizes().filter(|(w, h)| w * h > 1) {
        let picture = noise.samples(w * h);
        let place = noise.below(w * h);
        let next = (place + 1) % (w * h);
        let [mut a, mut b] = [3, 2].map(|odds| noise.region((w, h), odds));
        (a[place], a[next], b[next]) = (1, 0, 1);
        for (b, &a) in b.iter_mut().zip(&a) {
            *b *= 1 - a;
        }
        check_added((w, h), &picture, &a, &b);
        let rest: Vec<u8> = a.iter().map(|byte| 1 - byte).collect();
        check_added((w, h), &picture, &a, &rest);
    }
}

/// Every region of 4 by 3 beside all that it leaves.
#[test]
fn every_small_region_and_the_rest() {
    let picture = Noise(5).samples(12);
    for bits in 1..(1 << 12) - 1 {
        let regions = [bits, !bits].map(|bits| region_of_bits(bits, 12));
        check_added((4, 3), &picture, &regions[0], &regions[1]);
    }
}

struct Call {
    w: usize,
    h: usize,
    picture: Vec<u16>,
    region: Vec<u8>,
}

type Fault = fn(&mut Call);

/// What can be wrong, each with its number, in the order of the tests.
const FAULTS: [(u64, Fault); 6] = [
    (4, |call| call.w = 0),
    (4, |call| call.h = 4_097),
    (5, |call| call.picture.push(7)),
    (5, |call| call.region.truncate(8)),
    (9, |call| call.region[7] = 2),
    (19, |call| call.region.fill(0)),
];

/// Any faults at once: the first of them in the order decides. They are made the
/// last one first, so that the empty region still gets its wrong byte.
#[test]
fn any_faults_at_once() {
    for faults in 0..1_usize << FAULTS.len() {
        let mut call = Call {
            w: 3,
            h: 3,
            picture: PICTURE.to_vec(),
            region: vec![1, 0, 1, 1, 0, 0, 1, 0, 1],
        };
        let made = (0..FAULTS.len()).filter(|i| faults >> i & 1 == 1);
        for i in made.clone().rev() {
            FAULTS[i].1(&mut call);
        }
        let expected = made.map(|i| FAULTS[i].0).next().unwrap_or(0);
        let number = number_of(call.w, call.h, &call.picture, &call.region);
        assert_eq!(number, expected, "faults {faults:b}");
    }
}

#[test]
fn refused_sides() {
    for (w, h) in [(1, 1), (4_096, 1), (1, 4_096), (4_095, 3)] {
        let (picture, region) = (vec![7; w * h], vec![1; w * h]);
        assert_eq!(number_of(w, h, &picture, &region), 0, "{w} by {h}");
    }
    for (w, h) in [
        (0, 0),
        (0, 1),
        (1, 0),
        (4_097, 1),
        (1, 4_097),
        (usize::MAX, 1),
    ] {
        let len = (w * h).min(4_097);
        let (picture, region) = (vec![7; len], vec![1; len]);
        assert_eq!(number_of(w, h, &picture, &region), 4, "{w} by {h}");
    }
}

/// Either buffer empty, one too short, right and one too long, with a sample in the
/// region and without.
#[test]
fn refused_lengths() {
    for (w, h) in [(1, 1), (3, 2), (17, 16)] {
        let len = w * h;
        let lengths = [0, len - 1, len, len + 1];
        for (a, b) in lengths.iter().flat_map(|&a| lengths.map(|b| (a, b))) {
            for (byte, right) in [(1, 0), (0, 19), (2, 9)] {
                let expected = if [a, b] == [len; 2] { right } else { 5 };
                assert_eq!(number_of(w, h, &vec![7; a], &vec![byte; b]), expected);
            }
        }
    }
}

/// Every byte above 1, at every place, in a region with samples and in one without.
#[test]
fn refused_bytes() {
    let picture = [7; 15];
    let regions = [[0, 1, 1, 0, 1, 0, 0, 0, 1, 1, 0, 1, 0, 1, 0], [0; 15]];
    for (place, byte) in (0..15).flat_map(|place| (2..=255).map(move |byte| (place, byte))) {
        for mut region in regions {
            region[place] = byte;
            assert_eq!(number_of(5, 3, &picture, &region), 9, "{byte} at {place}");
        }
    }
}

/// Fewer cells than results, as many and more, under every number.
#[test]
fn result_arrays() {
    let all = [9, 134, 14, 8];
    for (number, w, picture, region) in [
        (0, 3, &PICTURE[..], [1; 9]),
        (4, 0, &PICTURE, [1; 9]),
        (5, 3, &PICTURE[1..], [1; 9]),
        (9, 3, &PICTURE, [2; 9]),
        (19, 3, &PICTURE, [0; 9]),
    ] {
        for len in 0..=6 {
            let mut results = vec![99; len];
            let returned = reference::brightness(w, 3, picture, &region, &mut results);
            let given = if number == 0 { all } else { [0; 4] };
            let cells = given.into_iter().chain([99; 2]).take(len);
            assert_eq!((returned, results), (number, cells.collect()));
        }
    }
}
