//! Frames around rectangles: one sample wide, one sample outside, over no sample of any rectangle.

use crate::rectangles::Rectangle;
use picture::Picture;

/// Draws a frame around each rectangle, where the picture has such a place. The rectangles lie inside the picture, and
/// `region` holds 1 for each of their samples.
pub fn draw(picture: &mut Picture, rectangles: &[Rectangle], region: &[u8]) {
    let before = picture.samples.clone();
    for rectangle in rectangles {
        let places: Vec<usize> = around(rectangle, picture.width, picture.height)
            .into_iter()
            .map(|(x, y)| y * picture.width + x)
            .filter(|&place| region[place] == 0)
            .collect();
        let value = contrast(&places, &before, picture.top);
        for place in places {
            picture.samples[place] = value;
        }
    }
}

/// The columns and rows one sample outside a rectangle that the picture has.
fn around(rectangle: &Rectangle, width: usize, height: usize) -> Vec<(usize, usize)> {
    let (left, right) = (rectangle.x as usize, (rectangle.x + rectangle.width) as usize);
    let (upper, lower) = (rectangle.y as usize, (rectangle.y + rectangle.height) as usize);
    let columns = left.saturating_sub(1)..width.min(right + 1);
    let mut found = Vec::new();
    for y in [upper.checked_sub(1), Some(lower).filter(|&y| y < height)].into_iter().flatten() {
        found.extend(columns.clone().map(|x| (x, y)));
    }
    for x in [left.checked_sub(1), Some(right).filter(|&x| x < width)].into_iter().flatten() {
        found.extend((upper..lower).map(|y| (x, y)));
    }
    found
}

/// 0 or the maximum value, whichever is further from the mean of the samples; the maximum value where both are as far.
fn contrast(places: &[usize], samples: &[u16], top: u16) -> u16 {
    let sum: u64 = places.iter().map(|&place| u64::from(samples[place])).sum();
    if 2 * sum > places.len() as u64 * u64::from(top) {
        0
    } else {
        top
    }
}

#[cfg(test)]
mod tests {
    use super::*;

    fn framed(width: usize, samples: Vec<u16>, rectangles: &[Rectangle], region: &[u8]) -> Vec<u16> {
        let mut picture = Picture { width, height: samples.len() / width, top: 9, samples };
        draw(&mut picture, rectangles, region);
        picture.samples
    }

    #[test]
    fn a_frame_goes_around_one_sample_outside() {
        let rectangle = Rectangle { x: 2, y: 2, width: 1, height: 1 };
        let mut region = vec![0; 25];
        region[12] = 1;
        let dark = framed(5, vec![1; 25], &[rectangle], &region);
        assert_eq!(
            dark,
            [[1, 1, 1, 1, 1], [1, 9, 9, 9, 1], [1, 9, 1, 9, 1], [1, 9, 9, 9, 1], [1, 1, 1, 1, 1]].concat()
        );
        let bright = framed(5, vec![8; 25], &[rectangle], &region);
        assert_eq!(bright.iter().filter(|&&s| s == 0).count(), 8);
    }

    #[test]
    fn no_sample_of_a_rectangle_is_drawn_over() {
        let rectangles = [Rectangle { x: 0, y: 0, width: 2, height: 1 }, Rectangle { x: 2, y: 0, width: 1, height: 2 }];
        let shown = framed(4, vec![0; 8], &rectangles, &[1, 1, 1, 0, 0, 0, 1, 0]);
        assert_eq!(shown, [0, 0, 0, 9, 9, 9, 0, 9]);
    }

    #[test]
    fn a_rectangle_as_large_as_the_picture_has_no_frame() {
        let all = Rectangle { x: 0, y: 0, width: 2, height: 2 };
        assert_eq!(framed(2, vec![1, 2, 3, 4], &[all], &[1; 4]), [1, 2, 3, 4]);
    }
}
