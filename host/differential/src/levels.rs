//! The picture at level r, of planes and of streams: beside the reference's, and
//! beside what the transform and the mask with r levels leave.

use crate::call::Call;
use crate::group::Group;
use crate::guarded::held;
use crate::random::Random;
use crate::shots::{self, mend, Shape, MAGNITUDE_LIMIT};

/// The picture at level r of a plane, with buffers as long as its area.
pub fn level_call(shape: &Shape, r: usize, plane: &[i32]) -> Call {
    let len = shape.area_len(r);
    Call::ShowLevel {
        kernel: shape.kernel,
        levels: shape.levels,
        r,
        depth: shape.depth,
        w: shape.w,
        h: shape.h,
        plane: plane.to_vec(),
        undone: held(len),
        shown: held(len),
    }
}

/// A stream at level r, with buffers as long as the picture and its area.
pub fn stream_call(shape: &Shape, r: usize, stream: &[u8]) -> Call {
    let (len, area) = (shape.len(), shape.area_len(r));
    stream_with_lengths(stream, r, [len, len, area, area])
}

/// A stream at level r, with plane, mask, undone and shown of those lengths.
pub fn stream_with_lengths(stream: &[u8], r: usize, lengths: [usize; 4]) -> Call {
    let [plane, mask, undone, shown] = lengths;
    Call::ShowStream {
        stream: stream.to_vec(),
        r,
        plane: held(plane),
        mask: held(mask),
        undone: held(undone),
        shown: held(shown),
        results: held(139),
    }
}

pub fn undo_call(shape: &Shape, plane: &[i32]) -> Call {
    Call::Undo {
        kernel: shape.kernel,
        levels: shape.levels,
        w: shape.w,
        h: shape.h,
        plane: plane.to_vec(),
        undone: held(shape.len()),
    }
}

/// What a call gave: the picture at its level, and that brought into range.
#[derive(PartialEq)]
struct Picture {
    undone: Vec<i32>,
    shown: Vec<u16>,
}

/// Makes a call that must be accepted.
fn accepted(group: &mut Group, call: &Call) -> Picture {
    let (number, answer) = group.compare(call.clone());
    group.expect(number == 0, call, "accepted");
    match answer {
        Call::ShowLevel { undone, shown, .. } | Call::ShowStream { undone, shown, .. } => {
            Picture { undone, shown }
        }
        _ => unreachable!("a call with a level"),
    }
}

/// These numbers, brought into range.
fn picture(shape: &Shape, undone: Vec<i32>) -> Picture {
    let top = (1 << shape.depth) - 1;
    let shown = undone.iter().map(|&n| n.clamp(0, top) as u16).collect();
    Picture { undone, shown }
}

/// That two pictures have the same numbers where the marks are.
fn alike(marks: &[u8], a: &Picture, b: &Picture) -> bool {
    let same = |i: usize| a.undone[i] == b.undone[i] && a.shown[i] == b.shown[i];
    (0..marks.len()).all(|i| marks[i] == 0 || same(i))
}

/// What a picture's own transform with r levels leaves in the area.
fn own(shape: &Shape, r: usize, samples: &[u16]) -> Vec<i32> {
    match r {
        0 => samples.iter().map(|&sample| i32::from(sample)).collect(),
        _ => shots::upper_left(&shots::transformed(shape, r, samples), shape, r),
    }
}

/// A picture's plane at every r: what its own transform with r levels leaves.
fn levels_of_picture(group: &mut Group, random: &mut Random, shape: &Shape) {
    let samples = shots::samples(random, shape);
    let plane = shots::transformed(shape, shape.levels, &samples);
    for r in 0..=shape.levels {
        let call = level_call(shape, r, &plane);
        let given = accepted(group, &call);
        let expected = picture(shape, own(shape, r, &samples));
        group.expect(
            given == expected,
            &call,
            "level r: what the picture's own transform with r levels leaves",
        );
    }
}

/// Any plane at every r: at 0 what undoing it gives, at J what it stores.
fn levels_of_plane(group: &mut Group, random: &mut Random, shape: &Shape) {
    let plane = shots::plane(random, shape.len());
    for r in 0..=shape.levels {
        let call = level_call(shape, r, &plane);
        let given = accepted(group, &call);
        if r == shape.levels {
            let stored = picture(shape, shots::upper_left(&plane, shape, r));
            group.expect(given == stored, &call, "level J: the area as it is stored");
        }
        if r == 0 {
            let (_, answer) = group.compare(undo_call(shape, &plane));
            let whole = match answer {
                Call::Undo { undone, .. } => picture(shape, undone) == given,
                _ => false,
            };
            group.expect(whole, &call, "level 0: the undone numbers, and those shown");
        }
    }
}

/// Every size to 20 by 20 with every kernel, J and r.
pub fn every_setting(group: &mut Group, random: &mut Random) {
    let case = group.case as usize;
    let (w, h) = (1 + case % 20, 1 + case / 20);
    for (kernel, levels) in (0..4).flat_map(|k| (1..=5).map(move |j| (k, j))) {
        let shape = Shape {
            kernel,
            levels,
            depth: random.within(1, 10),
            w,
            h,
            numbers: Vec::new(),
        };
        levels_of_picture(group, random, &shape);
        levels_of_plane(group, random, &shape);
    }
}

/// The large pictures of the chains.
pub fn large(group: &mut Group, random: &mut Random) {
    let shape = shots::large_shape(random, group.case as usize);
    levels_of_picture(group, random, &shape);
    levels_of_plane(group, random, &shape);
}

/// Lengths of two buffers near the area's and near the picture's.
pub fn near_lengths(area: usize, len: usize) -> Vec<(usize, usize)> {
    let near = [0, area - 1, area, area + 1, len - 1, len, len + 1];
    near.iter().flat_map(|&a| near.map(|b| (a, b))).collect()
}

/// Buffers of lengths near the area's and near the picture's, at every r and
/// above J.
pub fn buffer_lengths(group: &mut Group, random: &mut Random) {
    let shape = shots::tiny_shape(random);
    let plane = shots::some_plane(random, &shape);
    let above = [shape.levels + 1, 6, 64, 1 << 32, 1 << 63, usize::MAX];
    for r in (0..=shape.levels).chain(above) {
        let area = shape.area_len(r);
        for lengths in near_lengths(area, shape.len()) {
            let mut call = level_call(&shape, r, &plane);
            if let Call::ShowLevel { undone, shown, .. } = &mut call {
                (*undone, *shown) = (held(lengths.0), held(lengths.1));
            }
            let (number, _) = group.compare(call.clone());
            let expected = match (r > shape.levels, lengths == (area, area)) {
                (true, _) => 17,
                (false, false) => 5,
                (false, true) => 0,
            };
            group.expect(
                number == expected,
                &call,
                "0, 5 or 17 under its condition alone",
            );
        }
    }
}

/// A coefficient that is too large at every place, inside the area and outside.
pub fn every_wrong_coefficient(group: &mut Group, random: &mut Random) {
    let shape = shots::tiny_shape(random);
    let mut plane = shots::some_plane(random, &shape);
    for place in 0..plane.len() {
        let accepted = plane[place];
        plane[place] = random.pick(&[MAGNITUDE_LIMIT, -MAGNITUDE_LIMIT, i32::MIN, i32::MAX]);
        for r in 0..=shape.levels {
            let call = level_call(&shape, r, &plane);
            let (number, _) = group.compare(call.clone());
            group.expect(number == 10, &call, "refusal 10");
        }
        plane[place] = accepted;
    }
}

/// Two planes that agree on the mask of a region of any shape: at every r the
/// same wherever level r's mask marks.
pub fn agreeing_planes(group: &mut Group, random: &mut Random) {
    let shape = shots::common_shape(random);
    let odds = random.pick(&[2, 5, 40]);
    let region: Vec<u8> = (0..shape.len())
        .map(|_| u8::from(random.once_in(odds)))
        .collect();
    let mask = shots::mask(&shape, shape.levels, &region);
    let plane = shots::some_plane(random, &shape);
    let mut other = shots::plane(random, shape.len());
    for i in (0..plane.len()).filter(|&i| mask[i] == 1) {
        other[i] = plane[i];
    }
    for r in 0..=shape.levels {
        let a = accepted(group, &level_call(&shape, r, &plane));
        let call = level_call(&shape, r, &other);
        let b = accepted(group, &call);
        let marks = shots::level_mask(&shape, r, &region);
        group.expect(
            alike(&marks, &a, &b),
            &call,
            "planes that agree on the mask agree at level r",
        );
    }
}

/// The stream whole, and cut from its region mark on, at every r: whole, what is
/// expected of it; cut, the same wherever level r's mask marks.
fn cuts(
    group: &mut Group,
    random: &mut Random,
    shape: &Shape,
    stream: &[u8],
    expected: &dyn Fn(usize) -> Vec<i32>,
) {
    let lengths = cut_lengths(random, shape, stream);
    let region = shots::region(shape);
    for r in 0..=shape.levels {
        let call = stream_call(shape, r, stream);
        let whole = accepted(group, &call);
        let expected = picture(shape, expected(r));
        group.expect(whole == expected, &call, "level r of what was written");
        let marks = shots::level_mask(shape, r, &region);
        for &c in &lengths {
            let mut cut = stream[..c].to_vec();
            mend(&mut cut);
            let call = stream_call(shape, r, &cut);
            let given = accepted(group, &call);
            group.expect(
                alike(&marks, &given, &whole) && alike(&marks, &given, &expected),
                &call,
                "where level r's mask marks, a cut shows what the whole stream does",
            );
        }
    }
}

/// The region mark, some lengths behind it and the whole length.
fn cut_lengths(random: &mut Random, shape: &Shape, stream: &[u8]) -> Vec<usize> {
    let (mut plane, mut mask) = (vec![0; shape.len()], vec![0; shape.len()]);
    let mut results = [0; 3];
    let number = reference::read(stream, &mut plane, &mut mask, &mut results);
    assert_eq!(
        (number, results[1]),
        (0, 1),
        "accepted, the marked part whole"
    );
    let (region_mark, total) = (results[2] as usize, stream.len());
    let near = (region_mark + 1).min(total);
    let mut lengths = vec![region_mark, near, total];
    lengths.extend((0..3).map(|_| random.within(region_mark, total)));
    lengths
}

/// Streams written from pictures, against the pictures' own transforms.
pub fn cut_pictures(group: &mut Group, random: &mut Random) {
    let largest = random.pick(&[2, 4, 8, 16, 32]);
    let shape = shots::shape(random, largest);
    let samples = shots::samples(random, &shape);
    let plane = shots::transformed(&shape, shape.levels, &samples);
    let stream = shots::written(shape.clone(), plane).stream;
    cuts(group, random, &shape, &stream, &|r| {
        own(&shape, r, &samples)
    });
}

/// Streams of any plane, some with more bit planes than the writer gives them.
pub fn cut_planes(group: &mut Group, random: &mut Random) {
    let written = shots::tiny_written(random);
    let room = 22 - written.stream[13] as usize;
    let stream = match random.below(2) {
        0 => shots::with_more_planes(&written, random.within(0, room)),
        _ => written.stream.clone(),
    };
    let (shape, plane) = (&written.shape, &written.plane);
    cuts(group, random, shape, &stream, &|r| {
        shots::picture_at(shape, r, plane)
    });
}
