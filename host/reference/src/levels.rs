//! The walk over the levels, the same for numbers and for marks.

use std::ops::Range;

/// The area that so many levels leave, which the next one works on: the sides
/// halved and rounded up as many times, so that a side of 1 stays.
pub fn area(w: usize, h: usize, level: usize) -> (usize, usize) {
    (w.div_ceil(1 << level), h.div_ceil(1 << level))
}

/// Puts each row of the upper left area through the line rule.
fn rows<T: Copy>(plane: &mut [T], w: usize, area: (usize, usize), line: &impl Fn(&[T]) -> Vec<T>) {
    for y in 0..area.1 {
        let row: Vec<T> = (0..area.0).map(|x| plane[y * w + x]).collect();
        for (x, number) in line(&row).into_iter().enumerate() {
            plane[y * w + x] = number;
        }
    }
}

/// Puts each column of the upper left area through the line rule.
fn columns<T: Copy>(
    plane: &mut [T],
    w: usize,
    area: (usize, usize),
    line: &impl Fn(&[T]) -> Vec<T>,
) {
    for x in 0..area.0 {
        let column: Vec<T> = (0..area.1).map(|y| plane[y * w + x]).collect();
        for (y, number) in line(&column).into_iter().enumerate() {
            plane[y * w + x] = number;
        }
    }
}

/// Rows, then columns, from the whole picture to the deepest level's area.
pub fn forward<T: Copy>(
    plane: &mut [T],
    levels: usize,
    w: usize,
    h: usize,
    line: impl Fn(&[T]) -> Vec<T>,
) {
    for level in 0..levels {
        let area = area(w, h, level);
        rows(plane, w, area, &line);
        columns(plane, w, area, &line);
    }
}

/// Columns, then rows, from the last of the levels, the deepest, to the first:
/// `0..J` undoes all, `r..J` the deepest J − r.
pub fn backward<T: Copy>(
    plane: &mut [T],
    levels: Range<usize>,
    w: usize,
    h: usize,
    line: impl Fn(&[T]) -> Vec<T>,
) {
    for level in levels.rev() {
        let area = area(w, h, level);
        columns(plane, w, area, &line);
        rows(plane, w, area, &line);
    }
}

#[cfg(test)]
mod tests {
    use super::*;
    use crate::line;

    #[test]
    fn areas() {
        let sides = |w, h| (0..6).map(|level| area(w, h, level)).collect::<Vec<_>>();
        let panel = [
            (1366, 768),
            (683, 384),
            (342, 192),
            (171, 96),
            (86, 48),
            (43, 24),
        ];
        assert_eq!(sides(1366, 768), panel);
        assert_eq!(
            sides(5, 1),
            [(5, 1), (3, 1), (2, 1), (1, 1), (1, 1), (1, 1)]
        );
    }

    /// Numbers and planes of every size to 7 by 7, at more levels than such a
    /// size can be halved.
    #[test]
    fn every_small_size_comes_back() {
        for (w, h) in (1..=7).flat_map(|w| (1..=7).map(move |h| (w, h))) {
            let numbers: Vec<i64> = (0..w * h).map(|i| (i * i * 37 % 101) as i64 - 50).collect();
            for (kernel, levels) in (0..4).flat_map(|k| (1..=5).map(move |j| (k, j))) {
                let there = |x: &[i64]| line::forward(kernel, x);
                let back = |x: &[i64]| line::backward(kernel, x);
                let mut plane = numbers.clone();
                forward(&mut plane, levels, w, h, there);
                backward(&mut plane, 0..levels, w, h, back);
                assert_eq!(plane, numbers, "kernel {kernel}, J {levels}, {w} by {h}");
                backward(&mut plane, 0..levels, w, h, back);
                forward(&mut plane, levels, w, h, there);
                assert_eq!(plane, numbers, "kernel {kernel}, J {levels}, {w} by {h}");
            }
        }
    }
}
