//! Regions and masks joined: the worked masks of docs/FORMAT.md, that the mask of
//! two regions joined is the two masks joined, the joining itself, and every refusal
//! in its place.

mod common;

use common::{joined, mask_of, region_of_bits, sizes, Noise};

fn region_of((w, h): (usize, usize), numbers: &[u32]) -> Vec<u8> {
    let mut region = vec![99; w * h];
    assert_eq!(reference::region(numbers, w, h, &mut region), 0);
    region
}

/// Every kernel and J.
fn settings() -> impl Iterator<Item = (usize, usize)> {
    (0..4).flat_map(|kernel| (1..=5).map(move |levels| (kernel, levels)))
}

/// So many rectangles inside the picture.
fn any_rectangles(noise: &mut Noise, (w, h): (usize, usize), count: usize) -> Vec<u32> {
    let mut rectangle = || {
        let (x, y) = (noise.below(w), noise.below(h));
        let (width, height) = (1 + noise.below(w - x), 1 + noise.below(h - y));
        [x, y, width, height].map(|number| number as u32)
    };
    (0..count).flat_map(|_| rectangle()).collect()
}

fn inside(a: &[u8], b: &[u8]) -> bool {
    a.iter().zip(b).all(|(a, b)| a <= b)
}

#[test]
fn one_where_either_is_one() {
    let (first, second) = ([0, 0, 1, 1], [0, 1, 0, 1]);
    assert_eq!(joined((2, 2), &first, &second), [0, 1, 1, 1]);
    assert_eq!(joined((4, 1), &second, &first), [0, 1, 1, 1]);
}

/// Of 8 samples after one level, lows and highs: sample 3, sample 6 and both, under
/// each kernel, as docs/FORMAT.md has them.
#[test]
fn worked_masks() {
    let masks = [
        ["01000100", "00010001", "01010101"],
        ["11100100", "00110001", "11110101"],
        ["11110100", "01110001", "11110101"],
        ["01101110", "00010011", "01111111"],
    ];
    let bytes = |text: &str| text.bytes().map(|c| c - b'0').collect::<Vec<u8>>();
    for (kernel, texts) in masks.into_iter().enumerate() {
        let [third, sixth, both] = texts.map(bytes);
        let mask = |region: &str| mask_of((kernel, 1), (8, 1), &bytes(region));
        assert_eq!(mask("00010000"), third);
        assert_eq!(mask("00000010"), sixth);
        assert_eq!(mask("00010010"), both);
        assert_eq!(joined((8, 1), &third, &sixth), both);
    }
}

/// The masks of all regions of a size, each at its region's bits.
fn all_masks(setting: (usize, usize), size: (usize, usize)) -> Vec<Vec<u8>> {
    let count = size.0 * size.1;
    let mask = |bits| mask_of(setting, size, &region_of_bits(bits, count));
    (0..1 << count).map(mask).collect()
}

/// That the mask of all bits is the masks of two choices of them joined.
fn check_bits(size: (usize, usize), masks: &[Vec<u8>], a: usize, b: usize) {
    let both = joined(size, &masks[a], &masks[b]);
    assert_eq!(masks[a | b], both, "{size:?}, {a:b}, {b:b}");
}

/// Every two regions of at most six samples.
#[test]
fn masks_of_every_two_small_regions() {
    for size in sizes().filter(|(w, h)| w * h <= 6) {
        let regions = 1 << (size.0 * size.1);
        for setting in settings() {
            let masks = all_masks(setting, size);
            for (a, b) in (0..regions).flat_map(|a| (0..regions).map(move |b| (a, b))) {
                check_bits(size, &masks, a, b);
            }
        }
    }
}

/// Every region of 4 by 3, and of 3 by 4, with any one sample; any other region is
/// added sample by sample.
#[test]
fn masks_of_every_region_and_a_sample() {
    for size in [(4, 3), (3, 4)] {
        for setting in settings() {
            let masks = all_masks(setting, size);
            for (bits, place) in (0..1 << 12).flat_map(|bits| (0..12).map(move |i| (bits, i))) {
                check_bits(size, &masks, bits, 1 << place);
            }
        }
    }
}

/// The regions of bits are joined as their bits are.
#[test]
fn every_two_small_regions() {
    for bits in 0..1 << 12 {
        let [a, b] = [bits & 63, bits >> 6];
        let [first, second, both] = [a, b, a | b].map(|bits| region_of_bits(bits, 6));
        assert_eq!(joined((3, 2), &first, &second), both, "{a:b}, {b:b}");
    }
}

/// That the mask of two regions joined is the two masks joined.
fn check_masks(size: (usize, usize), a: &[u8], b: &[u8]) {
    let both = joined(size, a, b);
    for setting in settings() {
        let masks = [a, b].map(|region| mask_of(setting, size, region));
        assert_eq!(
            mask_of(setting, size, &both),
            joined(size, &masks[0], &masks[1]),
            "{setting:?}, {size:?}, {a:?}, {b:?}"
        );
    }
}

#[test]
fn masks_of_any_two_regions() {
    let mut noise = Noise(1);
    for size in sizes() {
        let odds = 2 + noise.below(30);
        let [a, b] = [odds, 40].map(|odds| noise.region(size, odds));
        check_masks(size, &a, &b);
    }
}

/// The rectangles of two lists, and the lists one behind the other.
#[test]
fn rectangles_of_two_lists() {
    let mut noise = Noise(2);
    for size in sizes() {
        let counts = [noise.below(4), noise.below(29)];
        let lists = counts.map(|count| any_rectangles(&mut noise, size, count));
        let [a, b] = [&lists[0], &lists[1]].map(|list| region_of(size, list));
        let all = region_of(size, &lists.concat());
        assert_eq!(all, joined(size, &a, &b), "{size:?}, {lists:?}");
        check_masks(size, &a, &b);
    }
}

/// The mask of several rectangles, made by adding one at a time to none.
#[test]
fn a_rectangle_at_a_time() {
    let mut noise = Noise(3);
    for size in sizes() {
        let numbers = any_rectangles(&mut noise, size, 3);
        for setting in settings() {
            let mut mask = vec![0; size.0 * size.1];
            for rectangle in numbers.chunks(4) {
                let own = mask_of(setting, size, &region_of(size, rectangle));
                mask = joined(size, &mask, &own);
            }
            let all = mask_of(setting, size, &region_of(size, &numbers));
            assert_eq!(mask, all, "{setting:?}, {size:?}, {numbers:?}");
        }
    }
}

/// Without order, by itself, with nothing and with all.
#[test]
fn the_joining_itself() {
    let mut noise = Noise(4);
    for size in sizes() {
        let [a, b, c] = [2, 3, 9].map(|odds| noise.region(size, odds));
        let [none, all] = [0, 1].map(|byte| vec![byte; size.0 * size.1]);
        let join = |a: &[u8], b: &[u8]| joined(size, a, b);
        assert_eq!(join(&a, &b), join(&b, &a));
        assert_eq!(join(&join(&a, &b), &c), join(&a, &join(&b, &c)));
        assert_eq!(join(&a, &a), a);
        assert_eq!(join(&a, &none), a);
        assert_eq!(join(&none, &none), none);
        assert_eq!(join(&a, &all), all);
        assert!(inside(&a, &join(&a, &b)) && inside(&b, &join(&a, &b)));
    }
}

/// The empty region marks nothing, and a region inside another has its mask
/// inside the other's.
#[test]
fn nothing_and_regions_inside_others() {
    let mut noise = Noise(5);
    for size in sizes() {
        let none = vec![0; size.0 * size.1];
        let outer = noise.region(size, 3);
        let mut inner = outer.clone();
        for byte in &mut inner {
            *byte *= noise.below(2) as u8;
        }
        for setting in settings() {
            assert_eq!(mask_of(setting, size, &none), none, "{setting:?}, {size:?}");
            let [a, b] = [&inner, &outer].map(|region| mask_of(setting, size, region));
            assert!(inside(&a, &b), "{setting:?}, {size:?}, {inner:?}");
        }
    }
}

/// The number of a call with so long a third buffer, which a refusal leaves as it
/// was.
fn number_of(w: usize, h: usize, first: &[u8], second: &[u8], len: usize) -> u64 {
    let mut joined = vec![99; len];
    let number = reference::join(w, h, first, second, &mut joined);
    let kept = joined.iter().all(|&byte| byte == 99);
    assert!(number == 0 || kept, "refusal {number} wrote");
    number
}

/// All that can be wrong is, and is put right one after the other.
#[test]
fn refusals() {
    let (bad, good) = ([0, 1, 1, 1, 0, 2], [0, 1, 1, 1, 0, 1]);
    assert_eq!(number_of(0, 0, &bad[1..], &bad[1..], 5), 4);
    assert_eq!(number_of(3, 0, &bad[1..], &bad[1..], 5), 4);
    assert_eq!(number_of(3, 2, &bad[1..], &bad[1..], 5), 5);
    assert_eq!(number_of(3, 2, &bad, &bad[1..], 5), 5);
    assert_eq!(number_of(3, 2, &bad, &bad, 5), 5);
    assert_eq!(number_of(3, 2, &bad, &bad, 6), 9);
    assert_eq!(number_of(3, 2, &good, &bad, 6), 9);
    assert_eq!(number_of(3, 2, &bad, &good, 6), 9);
    assert_eq!(number_of(3, 2, &good, &good, 6), 0);
}

#[test]
fn refused_sides() {
    for (w, h) in [(1, 1), (4096, 1), (1, 4096), (4095, 3)] {
        let bytes = vec![1; w * h];
        assert_eq!(number_of(w, h, &bytes, &bytes, w * h), 0, "{w} by {h}");
    }
    for (w, h) in [(0, 1), (1, 0), (4097, 1), (1, 4097), (usize::MAX, 1)] {
        let len = (w * h).min(4097);
        let bytes = vec![1; len];
        assert_eq!(number_of(w, h, &bytes, &bytes, len), 4, "{w} by {h}");
    }
}

/// Each of the three buffers one too short or too long.
#[test]
fn refused_lengths() {
    for (w, h) in [(1, 1), (3, 2), (17, 16)] {
        let (len, bytes) = (w * h, vec![1; w * h + 1]);
        for i in 0..27 {
            let [a, b, c] = [i % 3, i / 3 % 3, i / 9].map(|more| len + more - 1);
            let expected = if [a, b, c] == [len; 3] { 0 } else { 5 };
            assert_eq!(number_of(w, h, &bytes[..a], &bytes[..b], c), expected);
        }
    }
}

/// Every byte above 1, at every place, in either buffer and in both.
#[test]
fn refused_bytes() {
    let (w, h) = (5, 3);
    let good = [0, 1, 1, 0, 1, 0, 0, 0, 1, 1, 0, 1, 0, 1, 0];
    for (place, byte) in (0..good.len()).flat_map(|place| (2..=255).map(move |byte| (place, byte)))
    {
        let mut bad = good;
        bad[place] = byte;
        for (first, second) in [(&bad, &good), (&good, &bad), (&bad, &bad)] {
            assert_eq!(number_of(w, h, first, second, 15), 9, "{byte} at {place}");
        }
    }
}
