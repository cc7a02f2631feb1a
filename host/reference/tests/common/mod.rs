//! What several tests share: numbers by chance, regions, and the calls that must be
//! accepted.

// Each test is a program of its own and takes some of these alone.
#![allow(dead_code)]

/// Numbers that are the same in every run.
pub struct Noise(pub u64);

impl Noise {
    pub fn below(&mut self, limit: usize) -> usize {
        self.0 = self
            .0
            .wrapping_mul(6364136223846793005)
            .wrapping_add(1442695040888963407);
        (self.0 >> 33) as usize % limit
    }

    /// Samples of any 16 bits.
    pub fn samples(&mut self, count: usize) -> Vec<u16> {
        (0..count).map(|_| self.below(1 << 16) as u16).collect()
    }

    /// About one sample in so many.
    pub fn region(&mut self, (w, h): (usize, usize), odds: usize) -> Vec<u8> {
        (0..w * h)
            .map(|_| u8::from(self.below(odds) == 0))
            .collect()
    }
}

/// Every size to 17 by 17.
pub fn sizes() -> impl Iterator<Item = (usize, usize)> {
    (1..=17).flat_map(|w| (1..=17).map(move |h| (w, h)))
}

/// The region that has sample i where bit i is 1.
pub fn region_of_bits(bits: usize, count: usize) -> Vec<u8> {
    (0..count).map(|i| (bits >> i & 1) as u8).collect()
}

pub fn mask_of((kernel, levels): (usize, usize), (w, h): (usize, usize), region: &[u8]) -> Vec<u8> {
    let mut mask = vec![99; w * h];
    let number = reference::mask(kernel, levels, w, h, region, &mut mask);
    assert_eq!(number, 0);
    mask
}

pub fn joined((w, h): (usize, usize), a: &[u8], b: &[u8]) -> Vec<u8> {
    let mut joined = vec![99; w * h];
    assert_eq!(reference::join(w, h, a, b, &mut joined), 0);
    joined
}
