//! Pictures of every size to 9 by 9 at every J, so also at more levels than such
//! a size can be halved, whole and at every level r.

mod common;

use common::Noise;

fn noise(seed: usize) -> Noise {
    Noise(seed as u64)
}

/// Every kernel, J and size.
fn every_setting() -> impl Iterator<Item = [usize; 4]> {
    (0..4 * 5 * 9 * 9).map(|i| [i % 4, 1 + i / 4 % 5, 1 + i / 20 % 9, 1 + i / 180])
}

fn undone([kernel, levels, w, h]: [usize; 4], plane: &[i32]) -> Vec<i32> {
    let mut undone = vec![99; w * h];
    let number = reference::undo(kernel, levels, w, h, plane, &mut undone);
    assert_eq!(number, 0);
    undone
}

fn mask_of([kernel, levels, w, h]: [usize; 4], region: &[u8]) -> Vec<u8> {
    common::mask_of((kernel, levels), (w, h), region)
}

fn picture([_, _, w, h]: [usize; 4]) -> Vec<u16> {
    let samples = noise(w + h).samples(w * h);
    samples.iter().map(|sample| sample % 1024).collect()
}

fn transformed([kernel, levels, w, h]: [usize; 4], samples: &[u16]) -> Vec<i32> {
    let mut plane = vec![99; w * h];
    let number = reference::transform(kernel, levels, 10, w, h, samples, &mut plane);
    assert_eq!(number, 0);
    plane
}

/// Coefficients of either sign that are no picture's.
fn any_plane([_, _, w, h]: [usize; 4], seed: usize) -> Vec<i32> {
    let numbers = noise(seed).samples(w * h);
    numbers.iter().map(|&n| i32::from(n as i16)).collect()
}

/// What stands in the area at level r.
fn area<T: Copy>([_, _, w, h]: [usize; 4], r: usize, numbers: &[T]) -> Vec<T> {
    let (mut width, mut height) = (w, h);
    for _ in 0..r {
        (width, height) = (width.div_ceil(2), height.div_ceil(2));
    }
    let inside = |i: &usize| i % w < width && i / w < height;
    (0..w * h).filter(inside).map(|i| numbers[i]).collect()
}

/// The picture at level r, and what is shown of it at depth 10.
fn at_level(setting: [usize; 4], r: usize, plane: &[i32]) -> (Vec<i32>, Vec<u16>) {
    let [kernel, levels, w, h] = setting;
    let len = area(setting, r, plane).len();
    let (mut undone, mut shown) = (vec![99; len], vec![99; len]);
    let number = reference::show_level(kernel, levels, r, 10, w, h, plane, &mut undone, &mut shown);
    assert_eq!(number, 0, "{setting:?}, r {r}");
    (undone, shown)
}

fn in_range(numbers: &[i32]) -> Vec<u16> {
    numbers.iter().map(|&n| n.clamp(0, 1023) as u16).collect()
}

#[test]
fn pictures_come_back() {
    for setting in every_setting() {
        let samples = picture(setting);
        let plane = transformed(setting, &samples);
        let numbers: Vec<i32> = samples.iter().map(|&s| i32::from(s)).collect();
        assert_eq!(undone(setting, &plane), numbers, "{setting:?}");
    }
}

#[test]
fn level_0_is_undone_and_shown() {
    for (i, setting) in every_setting().enumerate() {
        let plane = any_plane(setting, i);
        let numbers = undone(setting, &plane);
        let mut shown = vec![99; numbers.len()];
        let number = reference::show(10, setting[2], setting[3], &numbers, &mut shown);
        assert_eq!(number, 0);
        assert_eq!(
            at_level(setting, 0, &plane),
            (numbers, shown),
            "{setting:?}"
        );
    }
}

#[test]
fn level_j_is_the_lowest_area_as_it_is_stored() {
    for (i, setting) in every_setting().enumerate() {
        let levels = setting[1];
        let plane = any_plane(setting, i);
        let stored = area(setting, levels, &plane);
        let shown = in_range(&stored);
        assert_eq!(
            at_level(setting, levels, &plane),
            (stored, shown),
            "{setting:?}"
        );
    }
}

/// The picture at level r of a picture's plane is what the picture's own transform
/// with r levels leaves.
#[test]
fn a_level_is_what_so_many_levels_leave() {
    for setting in every_setting() {
        let [kernel, levels, w, h] = setting;
        let samples = picture(setting);
        let plane = transformed(setting, &samples);
        for r in 1..=levels {
            let own = area(setting, r, &transformed([kernel, r, w, h], &samples));
            let shown = in_range(&own);
            assert_eq!(
                at_level(setting, r, &plane),
                (own, shown),
                "{setting:?}, r {r}"
            );
        }
        assert_eq!(at_level(setting, 0, &plane).1, samples, "{setting:?}");
    }
}

fn any_region([_, _, w, h]: [usize; 4], seed: usize) -> Vec<u8> {
    noise(seed).region((w, h), 5)
}

/// The plane with 0 for what is not marked.
fn marked_alone(plane: &[i32], mask: &[u8]) -> Vec<i32> {
    let marked = |(&c, &m): (&i32, &u8)| c * i32::from(m);
    plane.iter().zip(mask).map(marked).collect()
}

/// Two planes that agree on the mask show the region alike.
#[test]
fn the_region_is_rebuilt_from_the_mask() {
    for (i, setting) in every_setting().enumerate() {
        let count = setting[2] * setting[3];
        let region = any_region(setting, i);
        let mask = mask_of(setting, &region);
        let plane = any_plane(setting, i + 1);
        let mixed = marked_alone(&plane, &mask);
        let (a, b) = (undone(setting, &plane), undone(setting, &mixed));
        assert!(
            (0..count).all(|i| region[i] == 0 || a[i] == b[i]),
            "{setting:?}"
        );
    }
}

/// Two planes that agree on the mask show level r's area alike wherever level r's
/// mask marks.
#[test]
fn each_level_is_rebuilt_from_the_mask() {
    for (i, setting) in every_setting().enumerate() {
        let [kernel, levels, w, h] = setting;
        let region = any_region(setting, i);
        let plane = any_plane(setting, i + 1);
        let mixed = marked_alone(&plane, &mask_of(setting, &region));
        for r in 0..=levels {
            let marks = match r {
                0 => region.clone(),
                _ => area(setting, r, &mask_of([kernel, r, w, h], &region)),
            };
            let (a, a_shown) = at_level(setting, r, &plane);
            let (b, b_shown) = at_level(setting, r, &mixed);
            let alike = |i: usize| a[i] == b[i] && a_shown[i] == b_shown[i];
            assert!(
                (0..marks.len()).all(|i| marks[i] == 0 || alike(i)),
                "{setting:?}, r {r}"
            );
        }
    }
}

/// A region of everything marks everything, an empty one nothing.
#[test]
fn full_and_empty_regions() {
    for setting in every_setting() {
        let count = setting[2] * setting[3];
        for byte in [0, 1] {
            assert_eq!(
                mask_of(setting, &vec![byte; count]),
                vec![byte; count],
                "{setting:?}"
            );
        }
    }
}
