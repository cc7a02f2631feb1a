//! One line of N numbers, N from 1, to its lows and highs and back, and the same
//! for marks. There are N / 2 highs, and one low more where N is odd.

/// How many of the N numbers are lows: half of them, rounded up.
fn low_count(n: usize) -> usize {
    n.div_ceil(2)
}

/// Division towards minus infinity. For a positive divisor Euclid's quotient
/// is the floor, for negative numbers too.
fn floor(a: i64, divisor: i64) -> i64 {
    a.div_euclid(divisor)
}

/// The number at the index, or at the nearest index inside.
fn nearest(numbers: &[i64], index: i64) -> i64 {
    let last = numbers.len() as i64 - 1;
    numbers[index.clamp(0, last) as usize]
}

/// Kernel 2's low at the index, which is at most two past an end: L(−1) is L(0),
/// L(−2) is L(1), L(M) is L(M−1), L(M+1) is L(M−2). With M = 1 every index is 0.
fn reflected(lows: &[i64], index: i64) -> i64 {
    let m = lows.len() as i64;
    let inside = match index {
        _ if m == 1 => 0,
        -1 => 0,
        -2 => 1,
        _ if index == m => m - 1,
        _ if index == m + 1 => m - 2,
        _ => index,
    };
    lows[inside as usize]
}

/// What kernels 1 and 2 subtract from the high of kernel 0.
fn prediction(kernel: usize, lows: &[i64], n: usize) -> i64 {
    let n = n as i64;
    match kernel {
        0 => 0,
        1 => floor(nearest(lows, n - 1) - nearest(lows, n + 1), 4),
        2 => {
            let low = |index| reflected(lows, index);
            let sum = -3 * low(n - 2) + 22 * low(n - 1) - 22 * low(n + 1) + 3 * low(n + 2);
            floor(sum - 32, 64)
        }
        _ => unreachable!("kernel 3 does not predict from the lows of kernel 0"),
    }
}

fn forward_s(kernel: usize, x: &[i64]) -> Vec<i64> {
    let mean = |pair: &[i64]| match pair {
        [a, b] => floor(a + b, 2),
        unpaired => unpaired[0],
    };
    let lows: Vec<i64> = x.chunks(2).map(mean).collect();
    let highs: Vec<i64> = (0..x.len() / 2)
        .map(|n| x[2 * n] - x[2 * n + 1] - prediction(kernel, &lows, n))
        .collect();
    [lows, highs].concat()
}

fn backward_s(kernel: usize, line: &[i64]) -> Vec<i64> {
    let (lows, highs) = line.split_at(low_count(line.len()));
    let mut x = vec![0; line.len()];
    for n in 0..highs.len() {
        let high = highs[n] + prediction(kernel, lows, n);
        x[2 * n] = lows[n] + floor(high + 1, 2);
        x[2 * n + 1] = x[2 * n] - high;
    }
    if lows.len() > highs.len() {
        x[2 * highs.len()] = lows[highs.len()];
    }
    x
}

/// Kernel 3's sample at 2n; past the end of an even line it is X(N−2).
fn even(x: &[i64], n: usize) -> i64 {
    x[2 * n.min(low_count(x.len()) - 1)]
}

/// What kernel 3 adds to the sample at 2n, with d(−1) = d(0) and, past the end
/// of an odd line, the last d. A line of one sample has no d and stays.
fn update(d: &[i64], n: usize) -> i64 {
    if d.is_empty() {
        return 0;
    }
    let n = n as i64;
    floor(nearest(d, n - 1) + nearest(d, n) + 2, 4)
}

fn forward_53(x: &[i64]) -> Vec<i64> {
    let d: Vec<i64> = (0..x.len() / 2)
        .map(|n| x[2 * n + 1] - floor(even(x, n) + even(x, n + 1), 2))
        .collect();
    let s: Vec<i64> = (0..low_count(x.len()))
        .map(|n| x[2 * n] + update(&d, n))
        .collect();
    [s, d].concat()
}

fn backward_53(line: &[i64]) -> Vec<i64> {
    let (s, d) = line.split_at(low_count(line.len()));
    let mut x = vec![0; line.len()];
    for n in 0..s.len() {
        x[2 * n] = s[n] - update(d, n);
    }
    for n in 0..d.len() {
        x[2 * n + 1] = d[n] + floor(even(&x, n) + even(&x, n + 1), 2);
    }
    x
}

/// The lows, then the highs, of a line.
pub fn forward(kernel: usize, x: &[i64]) -> Vec<i64> {
    match kernel {
        3 => forward_53(x),
        _ => forward_s(kernel, x),
    }
}

/// The line whose lows, then highs, are given.
pub fn backward(kernel: usize, line: &[i64]) -> Vec<i64> {
    match kernel {
        3 => backward_53(line),
        _ => backward_s(kernel, line),
    }
}

/// A mark at an index; what is missing counts as unmarked.
fn marked(marks: &[bool], index: i64) -> bool {
    index >= 0 && index < marks.len() as i64 && marks[index as usize]
}

fn marks_s(reach: i64, x: &[bool]) -> Vec<bool> {
    let highs: Vec<bool> = x.chunks_exact(2).map(|pair| pair[0] || pair[1]).collect();
    let mut lows: Vec<bool> = (0..low_count(x.len()) as i64)
        .map(|n| (n - reach..=n + reach).any(|k| marked(&highs, k)))
        .collect();
    // The unpaired sample is no pair: its mark reaches its own low alone.
    if lows.len() > highs.len() {
        lows[highs.len()] |= x[x.len() - 1];
    }
    [lows, highs].concat()
}

fn marks_53(x: &[bool]) -> Vec<bool> {
    let lows: Vec<bool> = (0..low_count(x.len()) as i64)
        .map(|n| marked(x, 2 * n) || marked(x, 2 * n + 1) || marked(x, 2 * n - 1))
        .collect();
    let highs: Vec<bool> = (0..x.len() as i64 / 2)
        .map(|n| marked(x, 2 * n + 1) || marked(&lows, n) || marked(&lows, n + 1))
        .collect();
    [lows, highs].concat()
}

/// The marks of the lows, then of the highs, of a line.
pub fn marks(kernel: usize, x: &[bool]) -> Vec<bool> {
    match kernel {
        3 => marks_53(x),
        _ => marks_s(kernel as i64, x), // kernels 0, 1 and 2 reach as far as their number
    }
}

#[cfg(test)]
mod tests {
    use super::*;

    fn check(kernel: usize, x: &[i64], line: &[i64]) {
        assert_eq!(forward(kernel, x), line, "kernel {kernel}");
        assert_eq!(backward(kernel, line), x, "kernel {kernel}, back");
    }

    #[test]
    fn worked_lines() {
        check(0, &[10, 7, 4, 4], &[8, 4, 3, 0]);
        check(1, &[10, 7, 4, 4], &[8, 4, 2, -1]);
        check(2, &[10, 7, 4, 4], &[8, 4, 3, 0]);
        check(3, &[10, 7, 4, 4], &[10, 4, 0, 0]);
        check(0, &[-3, 0], &[-2, -3]);
        check(3, &[1, 5, 2, 7], &[3, 4, 4, 5]);
    }

    /// The unpaired 49 is neither halved nor passed over by a prediction, and
    /// kernel 3's last d stands for the one behind it.
    #[test]
    fn worked_odd_lines() {
        for kernel in 0..4 {
            check(kernel, &[-7], &[-7]);
        }
        check(0, &[10, 7, 49], &[8, 49, 3]);
        check(1, &[10, 7, 49], &[8, 49, 14]);
        check(2, &[10, 7, 49], &[8, 49, 18]);
        check(3, &[10, 7, 49], &[-1, 38, -22]);
        check(0, &[10, 7, 4, 4, 49], &[8, 4, 49, 3, 0]);
        check(1, &[10, 7, 4, 4, 49], &[8, 4, 49, 2, 11]);
        check(2, &[10, 7, 4, 4, 49], &[8, 4, 49, 1, 13]);
        check(3, &[10, 7, 4, 4, 49], &[10, -1, 38, 0, -22]);
    }

    /// Kernel 2 with one, two and three lows, where both borders are near; kernel
    /// 1 keeps the nearest index.
    #[test]
    fn worked_borders() {
        check(2, &[0, 0, 64, 64], &[0, 64, 23, 23]);
        check(1, &[0, 0, 64, 64], &[0, 64, 16, 16]);
        check(2, &[10, 7], &[8, 4]);
        check(2, &[0, 0, 64, 64, 0], &[0, 64, 0, 26, 1]);
        check(2, &[0, 0, 64, 64, 0, 0], &[0, 64, 0, 26, 1, -24]);
    }

    /// One past an end the nearest index and the reflected one are the same, so
    /// kernel 1, which looks no further, has one rule.
    #[test]
    fn one_past_an_end_is_the_end() {
        for m in 1..6 {
            let lows = noise(m, m);
            for index in -1..=m as i64 {
                assert_eq!(
                    reflected(&lows, index),
                    nearest(&lows, index),
                    "{m}, {index}"
                );
            }
        }
    }

    fn check_marks(kernel: usize, x: &str, line: &str) {
        let bits = |text: &str| text.chars().map(|c| c == '1').collect::<Vec<bool>>();
        assert_eq!(marks(kernel, &bits(x)), bits(line), "kernel {kernel}, {x}");
    }

    #[test]
    fn worked_marks() {
        check_marks(0, "00010000", "01000100");
        check_marks(1, "00010000", "11100100");
        check_marks(2, "00010000", "11110100");
        check_marks(3, "00010000", "01101110");
    }

    /// Four lows and three highs; then a line of one sample.
    #[test]
    fn worked_odd_marks() {
        check_marks(0, "0001000", "0100010");
        check_marks(1, "0001000", "1110010");
        check_marks(2, "0001000", "1111010");
        check_marks(3, "0001000", "0110111");
        for kernel in 0..3 {
            check_marks(kernel, "0000001", "0001000");
        }
        check_marks(3, "0000001", "0001001");
        for kernel in 0..4 {
            check_marks(kernel, "0", "0");
            check_marks(kernel, "1", "1");
        }
    }

    fn check_both_ways(kernel: usize, x: &[i64]) {
        assert_eq!(backward(kernel, &forward(kernel, x)), x, "kernel {kernel}");
        assert_eq!(forward(kernel, &backward(kernel, x)), x, "kernel {kernel}");
    }

    #[test]
    fn every_short_line_comes_back() {
        for n in 1..=6 {
            for number in 0..5_i64.pow(n) {
                let x: Vec<i64> = (0..n).map(|i| number / 5_i64.pow(i) % 5 - 2).collect();
                (0..4).for_each(|kernel| check_both_ways(kernel, &x));
            }
        }
    }

    /// Numbers from −1,000 to 1,000 that are the same in every run.
    fn noise(seed: usize, count: usize) -> Vec<i64> {
        let mut state = seed as u64;
        let mut next = || {
            state = state
                .wrapping_mul(6364136223846793005)
                .wrapping_add(1442695040888963407);
            (state >> 33) as i64 % 2001 - 1000
        };
        (0..count).map(|_| next()).collect()
    }

    #[test]
    fn longer_lines_come_back() {
        for n in 1..=13 {
            for seed in 0..200 {
                let x = noise(seed, n);
                (0..4).for_each(|kernel| check_both_ways(kernel, &x));
            }
        }
    }

    /// Every choice of marked samples of a line of n.
    fn every_marks(n: usize) -> impl Iterator<Item = Vec<bool>> {
        (0..1_usize << n).map(move |bits| (0..n).map(|i| bits >> i & 1 == 1).collect())
    }

    /// Two lines of coefficients that agree on the mask.
    #[test]
    fn marked_samples_are_rebuilt_from_the_mask() {
        for (kernel, n) in (0..4).flat_map(|kernel| (1..=13).map(move |n| (kernel, n))) {
            for (seed, x) in every_marks(n).enumerate() {
                let mask = marks(kernel, &x);
                let (line, other) = (noise(seed, n), noise(seed + 1, n));
                let mixed: Vec<i64> = (0..n)
                    .map(|i| if mask[i] { line[i] } else { other[i] })
                    .collect();
                let (a, b) = (backward(kernel, &line), backward(kernel, &mixed));
                let same = (0..n).all(|i| !x[i] || a[i] == b[i]);
                assert!(same, "kernel {kernel}, {x:?}");
            }
        }
    }

    /// In kernel 0 each marked coefficient, altered alone, alters a marked sample.
    #[test]
    fn no_mark_of_kernel_0_can_be_spared() {
        for x in (1..=9).flat_map(every_marks) {
            let mask = marks(0, &x);
            let line = noise(x.len(), x.len());
            let samples = backward(0, &line);
            for place in (0..x.len()).filter(|&i| mask[i]) {
                let mut altered = line.clone();
                altered[place] += 4;
                let others = backward(0, &altered);
                let seen = (0..x.len()).any(|i| x[i] && others[i] != samples[i]);
                assert!(seen, "place {place}, {x:?}");
            }
        }
    }
}
