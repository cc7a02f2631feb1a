//! Sizes of pictures, and the regions that are timed in them.

use std::fmt;

/// A picture's width and height.
#[derive(Clone, Copy, PartialEq)]
pub struct Size {
    pub w: usize,
    pub h: usize,
}

impl Size {
    pub const fn new(w: usize, h: usize) -> Size {
        Size { w, h }
    }

    pub fn samples(self) -> usize {
        self.w * self.h
    }

    /// The area at level r.
    pub fn area(self, r: usize) -> Size {
        Size::new(self.w.div_ceil(1 << r), self.h.div_ceil(1 << r))
    }
}

impl fmt::Display for Size {
    fn fmt(&self, f: &mut fmt::Formatter) -> fmt::Result {
        write!(f, "{} by {}", self.w, self.h)
    }
}

/// No rectangle, one over a tenth of the picture, one over all of it: what they are called, and the
/// rectangle numbers.
pub fn regions(size: Size) -> [(&'static str, Vec<u32>); 3] {
    let sides = [size.w as u32, size.h as u32];
    let [width, height] = sides.map(|side| (f64::from(side) * 0.1_f64.sqrt()) as u32);
    let [x, y] = [(sides[0] - width) / 2, (sides[1] - height) / 2];
    [
        ("none", Vec::new()),
        ("a tenth", vec![x, y, width, height]),
        ("all", vec![0, 0, sides[0], sides[1]]),
    ]
}
