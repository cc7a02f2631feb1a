//! The refusals (docs/FORMAT.md), one function each. A call tests those that it
//! has, in the order 12, 13, 1, 2, 17, 3, 4, 7, 8, 14, 5, 6, 9, 19, 10, 16, 15, 11.

/// A refusal's number, or nothing.
pub type Tested = Result<(), u64>;

pub const LARGEST_SIDE: usize = 4096;
pub const MOST_RECTANGLES: usize = 32;
pub const MOST_PLANES: usize = 22;
pub const MAGNITUDE_LIMIT: u32 = 1 << 22;

fn refuse_if(condition: bool, number: u64) -> Tested {
    if condition {
        Err(number)
    } else {
        Ok(())
    }
}

pub fn kernel(kernel: usize) -> Tested {
    refuse_if(kernel > 3, 1)
}

pub fn levels(levels: usize) -> Tested {
    refuse_if(!(1..=5).contains(&levels), 2)
}

/// The level of a small picture, for a J already tested.
pub fn level(r: usize, levels: usize) -> Tested {
    refuse_if(r > levels, 17)
}

pub fn depth(depth: usize) -> Tested {
    refuse_if(!(1..=10).contains(&depth), 3)
}

pub fn dropped(q: usize) -> Tested {
    refuse_if(q > MOST_PLANES, 3)
}

pub fn sides(w: usize, h: usize) -> Tested {
    let outside = |side| !(1..=LARGEST_SIDE).contains(&side);
    refuse_if(outside(w) || outside(h), 4)
}

/// A buffer's length, for sides already tested or those of an area of theirs.
pub fn length(len: usize, w: usize, h: usize) -> Tested {
    refuse_if(len != w * h, 5)
}

pub fn samples(samples: &[u16], depth: usize) -> Tested {
    refuse_if(samples.iter().any(|&s| u32::from(s) >= 1 << depth), 6)
}

/// Refusals 7 and 8, for sides already tested.
pub fn rectangles(numbers: &[u32], w: usize, h: usize) -> Tested {
    refuse_if(
        numbers.len() % 4 != 0 || numbers.len() / 4 > MOST_RECTANGLES,
        7,
    )?;
    for rectangle in numbers.chunks(4) {
        // Wider than the numbers are, so that no sum comes round to a small one.
        let [x, y, width, height] = [0, 1, 2, 3].map(|i| u64::from(rectangle[i]));
        refuse_if(width == 0 || height == 0, 8)?;
        refuse_if(x + width > w as u64 || y + height > h as u64, 8)?;
    }
    Ok(())
}

pub fn marks(bytes: &[u8]) -> Tested {
    refuse_if(bytes.iter().any(|&b| b > 1), 9)
}

/// A region whose bytes are already tested.
pub fn without_sample(region: &[u8]) -> Tested {
    refuse_if(!region.contains(&1), 19)
}

pub fn magnitudes(plane: &[i32]) -> Tested {
    refuse_if(
        plane.iter().any(|c| c.unsigned_abs() >= MAGNITUDE_LIMIT),
        10,
    )
}

pub fn planes(planes: usize) -> Tested {
    refuse_if(planes > MOST_PLANES, 14)
}
