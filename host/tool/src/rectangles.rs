//! Rectangles as people write them: x,y,w,h or WxH+X+Y, on the command line or in a file, one a line.

use crate::words::{number, printable};
use std::fmt;
use std::str::FromStr;

/// The largest numbers are kept as they are given, so that a message can name them.
#[derive(Clone, Copy, Debug, PartialEq)]
pub struct Rectangle {
    pub x: u64,
    pub y: u64,
    pub width: u64,
    pub height: u64,
}

const FORMS: &str = "a rectangle is x,y,w,h or WxH+X+Y in whole numbers, such as 168,123,410,53 or 410x53+168+123";

impl FromStr for Rectangle {
    type Err = String;

    fn from_str(text: &str) -> Result<Rectangle, String> {
        commas(text).or_else(|| geometry(text)).ok_or_else(|| FORMS.to_string())
    }
}

impl fmt::Display for Rectangle {
    fn fmt(&self, f: &mut fmt::Formatter<'_>) -> fmt::Result {
        write!(f, "{},{},{},{}", self.x, self.y, self.width, self.height)
    }
}

fn commas(text: &str) -> Option<Rectangle> {
    let numbers: Option<Vec<u64>> = text.split(',').map(number).collect();
    let [x, y, width, height] = numbers?.try_into().ok()?;
    Some(Rectangle { x, y, width, height })
}

fn geometry(text: &str) -> Option<Rectangle> {
    let (size, place) = text.split_once('+')?;
    let (width, height) = size.split_once(['x', 'X'])?;
    let (x, y) = place.split_once('+')?;
    Some(Rectangle { x: number(x)?, y: number(y)?, width: number(width)?, height: number(height)? })
}

/// The rectangles of a file, one a line; blank lines are skipped, and what stands behind # is a comment. The message
/// names the line.
pub fn listed(text: &str) -> Result<Vec<Rectangle>, String> {
    let mut found = Vec::new();
    // An editor may put a byte order mark in front.
    for (i, line) in text.trim_start_matches('\u{feff}').lines().enumerate() {
        let rectangle = line.split('#').next().unwrap_or_default().trim();
        if !rectangle.is_empty() {
            let parsed = rectangle.parse();
            found.push(
                parsed.map_err(|rule| format!("line {}: '{}' is no rectangle; {rule}", i + 1, printable(rectangle)))?,
            );
        }
    }
    Ok(found)
}

/// The numbers as the codec takes them, x, y, width, height of each in turn. It refuses every number above 4,096, so
/// that those which its type cannot hold become the largest that it can.
pub fn numbers(rectangles: &[Rectangle]) -> Vec<u32> {
    let fitted = |number| u32::try_from(number).unwrap_or(u32::MAX);
    rectangles.iter().flat_map(|r| [r.x, r.y, r.width, r.height].map(fitted)).collect()
}

/// The rectangles that some numbers are, x, y, width, height of each in turn.
pub fn of_numbers(numbers: impl Iterator<Item = u64>) -> Vec<Rectangle> {
    let numbers: Vec<u64> = numbers.collect();
    let rectangle = |n: &[u64]| Rectangle { x: n[0], y: n[1], width: n[2], height: n[3] };
    numbers.chunks_exact(4).map(rectangle).collect()
}

/// The places that belong to the rectangles in the picture at a level: those whose block of 2^level by 2^level samples
/// touches the rectangle. The rectangles are those of a stream, which are not empty.
pub fn at_level(rectangles: &[Rectangle], level: usize) -> Vec<Rectangle> {
    let places = |r: &Rectangle| {
        let (x, y) = (r.x >> level, r.y >> level);
        let (right, lower) = ((r.x + r.width - 1) >> level, (r.y + r.height - 1) >> level);
        Rectangle { x, y, width: right - x + 1, height: lower - y + 1 }
    };
    rectangles.iter().map(places).collect()
}

#[cfg(test)]
mod tests {
    use super::*;

    fn rectangle(x: u64, y: u64, width: u64, height: u64) -> Rectangle {
        Rectangle { x, y, width, height }
    }

    #[test]
    fn both_forms() {
        assert_eq!("168,123,410,53".parse(), Ok(rectangle(168, 123, 410, 53)));
        assert_eq!("410x53+168+123".parse(), Ok(rectangle(168, 123, 410, 53)));
        assert_eq!("0X1+2+4294967296".parse(), Ok(rectangle(2, 4294967296, 0, 1)));
        let wrong = ["", "1,2,3", "1,2,3,4,5", "1,2,3,", "1, 2,3,4", "-1,2,3,4", "a,b,c,d", "+1,2,3,4"];
        let others = ["1x2", "1x2+3", "1x2+3+4+5", "1x2-3+4", "1x2+-3+4", "x2+3+4", "1,2,3,99999999999999999999"];
        for text in wrong.iter().chain(&others) {
            assert!(text.parse::<Rectangle>().is_err(), "{text}");
        }
    }

    #[test]
    fn a_list_has_one_a_line() {
        let text = "# part numbers\n1,2,3,4 # the first\n\n  5x6+7+8\r\n#\n";
        assert_eq!(listed(text), Ok(vec![rectangle(1, 2, 3, 4), rectangle(7, 8, 5, 6)]));
        assert_eq!(listed(""), Ok(vec![]));
        assert!(listed("\n1,2,3,4\n1,2,3\n").unwrap_err().starts_with("line 3: '1,2,3' is no rectangle"));
    }

    #[test]
    fn at_a_level_a_rectangle_has_the_places_whose_blocks_touch_it() {
        for (x, width) in [(0, 1), (3, 1), (3, 2), (4, 4), (5, 9), (7, 2), (0, 17), (16, 1)] {
            for level in 0..=5 {
                let touches = |place: u64| (place << level) < x + width && x < ((place + 1) << level);
                let places: Vec<u64> = (0..17).filter(|&place| touches(place)).collect();
                let (first, count) = (places[0], places.len() as u64);
                assert_eq!(
                    at_level(&[rectangle(x, 2, width, 1), rectangle(2, x, 1, width)], level),
                    [rectangle(first, 2 >> level, count, 1), rectangle(2 >> level, first, 1, count)]
                );
            }
        }
    }

    #[test]
    fn the_codec_gets_numbers_that_its_type_holds() {
        assert_eq!(
            numbers(&[rectangle(1, 2, 3, 4), rectangle(u64::MAX, 0, 1 << 32, 5)]),
            [1, 2, 3, 4, u32::MAX, 0, u32::MAX, 5]
        );
        assert_eq!(of_numbers([1, 2, 3, 4].into_iter()), [rectangle(1, 2, 3, 4)]);
    }
}
