//! Transform, undo and mask beside the reference, OpenJPEG's 5/3 and a copy.

use benchmark::size::Size;
use benchmark::timing::best;
use benchmark::{accepted, region_of, DEPTH};

use crate::outside_53;
use crate::table::{row, More, Row};
use crate::KERNELS;

/// OpenJPEG's times for kernel 3; its coefficients must be the library's.
fn outside_times(kernel: usize, size: Size, levels: usize, samples: &[u16]) -> [More; 2] {
    if kernel != 3 {
        return [More::NoKernel; 2];
    }
    let Some(outside) = outside_53::run(samples, size, levels) else {
        return [More::NotInstalled; 2];
    };
    let mut plane = vec![0; size.samples()];
    accepted(bindings::transform(
        kernel, levels, DEPTH, size.w, size.h, samples, &mut plane,
    ));
    assert!(
        plane == outside.plane,
        "transform: library and OpenJPEG differ"
    );
    [
        More::Outside(outside.transform),
        More::Outside(outside.undo),
    ]
}

fn transform_times(
    kernel: usize,
    size: Size,
    levels: usize,
    samples: &[u16],
) -> ([f64; 3], Vec<i32>) {
    let [mut copied, mut plane, mut expected] = [0, 0, 0].map(|c| vec![c; size.samples()]);
    let times = best([
        &mut || {
            for (c, &s) in copied.iter_mut().zip(samples) {
                *c = i32::from(s);
            }
            std::hint::black_box(&mut copied);
        },
        &mut || {
            accepted(bindings::transform(
                kernel, levels, DEPTH, size.w, size.h, samples, &mut plane,
            ));
        },
        &mut || {
            accepted(reference::transform(
                kernel,
                levels,
                DEPTH,
                size.w,
                size.h,
                samples,
                &mut expected,
            ));
        },
    ]);
    assert!(plane == expected, "transform: library and reference differ");
    (times, plane)
}

fn undo_times(kernel: usize, size: Size, levels: usize, plane: &[i32]) -> [f64; 3] {
    let [mut copied, mut undone, mut expected] = [0, 0, 0].map(|n| vec![n; size.samples()]);
    let times = best([
        &mut || {
            copied.copy_from_slice(plane);
            std::hint::black_box(&mut copied);
        },
        &mut || {
            accepted(bindings::undo(
                kernel,
                levels,
                size.w,
                size.h,
                plane,
                &mut undone,
            ))
        },
        &mut || {
            accepted(reference::undo(
                kernel,
                levels,
                size.w,
                size.h,
                plane,
                &mut expected,
            ))
        },
    ]);
    assert!(undone == expected, "undo: library and reference differ");
    times
}

pub fn transform_rows(kernel: usize, size: Size, levels: usize, samples: &[u16]) -> [Row; 2] {
    let name = || format!("{} | {levels}", KERNELS[kernel]);
    let [outside, outside_back] = outside_times(kernel, size, levels, samples);
    let (times, plane) = transform_times(kernel, size, levels, samples);
    let times_back = undo_times(kernel, size, levels, &plane);
    [
        row(name(), size, times, outside),
        row(name(), size, times_back, outside_back),
    ]
}

/// Eight rectangles, four in each of two rows, over about a tenth of the picture.
pub fn eight(size: Size) -> Vec<u32> {
    let across = |percent: usize| (size.w * percent / 100) as u32;
    let down = |percent: usize| (size.h * percent / 100) as u32;
    let [width, height] = [across(9), down(14)];
    let place = |i: usize| [across(10 + 23 * (i % 4)), down(20 + 45 * (i / 4))];
    let rectangle = |i| [place(i)[0], place(i)[1], width, height];
    (0..8).flat_map(rectangle).collect()
}

fn mask_times(kernel: usize, size: Size, levels: usize, region: &[u8]) -> [f64; 3] {
    let [mut copied, mut mask, mut expected] = [0, 0, 0].map(|m| vec![m; size.samples()]);
    let times = best([
        &mut || {
            copied.copy_from_slice(region);
            std::hint::black_box(&mut copied);
        },
        &mut || {
            accepted(bindings::mask(
                kernel, levels, size.w, size.h, region, &mut mask,
            ))
        },
        &mut || {
            accepted(reference::mask(
                kernel,
                levels,
                size.w,
                size.h,
                region,
                &mut expected,
            ))
        },
    ]);
    assert!(mask == expected, "mask: library and reference differ");
    times
}

pub fn mask_row(kernel: usize, size: Size, levels: usize) -> Row {
    let region = region_of(size, &eight(size));
    let name = format!("{} | {levels}", KERNELS[kernel]);
    let times = mask_times(kernel, size, levels, &region);
    row(name, size, times, More::Nothing)
}
