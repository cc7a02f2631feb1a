//! Two pictures, sample by sample.

/// Where two pictures differ first, in reading order, and their samples there.
#[derive(Debug, PartialEq)]
pub struct Place {
    pub x: usize,
    pub y: usize,
    pub left: u16,
    pub right: u16,
}

#[derive(Debug, Default, PartialEq)]
pub struct Differences {
    pub compared: usize,
    pub count: usize,
    pub first: Option<Place>,
    pub largest: u16,
    pub sum: u64,
}

impl Differences {
    /// The mean error over all compared samples.
    pub fn mean(&self) -> f64 {
        if self.compared == 0 {
            return 0.0;
        }
        self.sum as f64 / self.compared as f64
    }
}

/// Compares the samples where the region holds the wanted byte. The three slices are equally long.
pub fn differences(left: &[u16], right: &[u16], region: &[u8], wanted: u8, width: usize) -> Differences {
    let mut found = Differences::default();
    for (i, &mark) in region.iter().enumerate() {
        if mark != wanted {
            continue;
        }
        found.compared += 1;
        let (a, b) = (left[i], right[i]);
        if a == b {
            continue;
        }
        found.count += 1;
        found.largest = found.largest.max(a.abs_diff(b));
        found.sum += u64::from(a.abs_diff(b));
        if found.first.is_none() {
            found.first = Some(Place { x: i % width, y: i / width, left: a, right: b });
        }
    }
    found
}

#[cfg(test)]
mod tests {
    use super::*;

    #[test]
    fn equal_pictures() {
        let found = differences(&[1, 2, 3, 4], &[1, 2, 3, 4], &[1; 4], 1, 2);
        assert_eq!(found, Differences { compared: 4, ..Default::default() });
    }

    #[test]
    fn only_the_wanted_samples_count() {
        let found = differences(&[1, 2, 3, 4], &[9, 2, 5, 0], &[0, 1, 1, 1], 1, 2);
        let first = Some(Place { x: 0, y: 1, left: 3, right: 5 });
        assert_eq!(found, Differences { compared: 3, count: 2, first, largest: 4, sum: 6 });
        assert_eq!(found.mean(), 2.0);
        assert_eq!(differences(&[1], &[2], &[1], 0, 1).mean(), 0.0);
    }
}
