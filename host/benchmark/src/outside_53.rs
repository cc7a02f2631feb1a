//! OpenJPEG's 5/3, in a program of its own that the script compiles where the
//! archive is installed and names in OUTSIDE_53 (tools/outside_53).

use std::env;

use benchmark::size::Size;

use crate::outside::{self, from_bytes, to_bytes};

/// Best times of transform and undoing, and the coefficients.
pub struct Outside {
    pub transform: f64,
    pub undo: f64,
    pub plane: Vec<i32>,
}

/// OpenJPEG goes columns first, so that it gets and gives exchanged sides: w
/// columns and h rows become h columns and w rows.
fn exchanged(numbers: &[i32], Size { w, h }: Size) -> Vec<i32> {
    let mut out = vec![0; numbers.len()];
    for y in 0..h {
        for x in 0..w {
            out[x * h + y] = numbers[y * w + x];
        }
    }
    out
}

/// Runs the program, if it is there: its figures, and the picture that it gives, of
/// so many columns and rows.
fn answer(
    samples: &[u16],
    size: Size,
    levels: usize,
    numbers: &[u32],
    given: Size,
) -> Option<(Vec<f64>, Vec<i32>)> {
    let program = env::var_os("OUTSIDE_53")?;
    let picture: Vec<i32> = samples.iter().map(|&s| i32::from(s)).collect();
    let mut bytes = to_bytes(&[size.h as i32, size.w as i32, levels as i32]);
    bytes.extend(to_bytes(&exchanged(&picture, size)));
    let answer = outside::run(&program, given.samples(), numbers, bytes);
    let turned = Size::new(given.h, given.w);
    let numbers = exchanged(&from_bytes(&answer.bytes), turned);
    Some((answer.figures, numbers))
}

/// None if the program is not there.
pub fn run(samples: &[u16], size: Size, levels: usize) -> Option<Outside> {
    let (figures, plane) = answer(samples, size, levels, &[], size)?;
    let [transform, undo] = figures[..] else {
        panic!("OpenJPEG's 5/3 told other figures than two times");
    };
    Some(Outside {
        transform,
        undo,
        plane,
    })
}

/// The best time of undoing as far as level r, and the picture at that level. None if
/// the program is not there.
pub fn at_level(samples: &[u16], size: Size, levels: usize, r: usize) -> Option<(f64, Vec<i32>)> {
    let (figures, picture) = answer(samples, size, levels, &[r as u32], size.area(r))?;
    let [time] = figures[..] else {
        panic!("OpenJPEG's 5/3 told other figures than one time");
    };
    Some((time, picture))
}
