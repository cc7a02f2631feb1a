//! What holds of the library's brightness by its own answers, without the reference:
//! quotient and remainder, samples that do not count, regions that add up, and streams
//! that were cut.

use crate::brightness::call_of;
use crate::call::Call;
use crate::group::Group;
use crate::guarded::held;
use crate::joins::join_call;
use crate::levels;
use crate::random::Random;
use crate::shots::{self, any_marks, any_samples, Shape};

/// The library's number and results.
#[derive(PartialEq)]
struct Answer {
    number: u64,
    results: Vec<u64>,
}

fn answer(group: &mut Group, call: &Call) -> Answer {
    match group.on_library(call) {
        (number, Call::Brightness { results, .. }) => Answer { number, results },
        _ => unreachable!("a call of brightness"),
    }
}

/// Makes a call that the library must accept.
fn accepted(group: &mut Group, call: Call) -> Call {
    let (number, given) = group.on_library(&call);
    group.expect(number == 0, &call, "accepted");
    given
}

/// A region with a sample at least.
fn some_region(random: &mut Random, len: usize) -> Vec<u8> {
    let mut region = any_marks(random, len);
    region[random.below(len)] = 1;
    region
}

/// That quotient times number plus remainder is the sum, with the remainder below the
/// number, and that number and sum are of the samples taken one by one.
pub fn division(group: &mut Group, random: &mut Random) {
    let shape = shots::common_shape(random);
    let (picture, region) = (
        any_samples(random, shape.len()),
        some_region(random, shape.len()),
    );
    let call = call_of((shape.w, shape.h), &picture, &region);
    let answer = answer(group, &call);
    let [number, sum, quotient, remainder] = [0, 1, 2, 3].map(|i| u128::from(answer.results[i]));
    let divided = remainder < number && quotient * number + remainder == sum;
    group.expect(answer.number == 0 && divided, &call, "the law of division");
    let inside = (0..shape.len()).filter(|&i| region[i] == 1);
    let samples: Vec<u128> = inside.map(|i| u128::from(picture[i])).collect();
    let own = (samples.len() as u128, samples.iter().sum());
    group.expect((number, sum) == own, &call, "the samples one by one");
}

/// That a sample outside the region does not count, whatever it is.
pub fn samples_outside(group: &mut Group, random: &mut Random) {
    let shape = shots::common_shape(random);
    let (size, len) = ((shape.w, shape.h), shape.len());
    let [picture, mut other] = [0; 2].map(|_| any_samples(random, len));
    let region = any_marks(random, len);
    for i in (0..len).filter(|&i| region[i] == 1) {
        other[i] = picture[i];
    }
    let call = call_of(size, &picture, &region);
    let same = answer(group, &call) == answer(group, &call_of(size, &other, &region));
    group.expect(same, &call, "pictures that agree on the region");
}

fn joined(group: &mut Group, size: (usize, usize), first: &[u8], second: &[u8]) -> Vec<u8> {
    match accepted(group, join_call(size, first, second, first.len())) {
        Call::Join { joined, .. } => joined,
        _ => unreachable!("a call of join"),
    }
}

/// That number and sum of two regions without a common sample, added, are those of both
/// joined. A region without a sample is refused, and adds nothing.
fn expect_added(
    group: &mut Group,
    size: (usize, usize),
    picture: &[u16],
    first: &[u8],
    second: &[u8],
) {
    let both = joined(group, size, first, second);
    let call = call_of(size, picture, &both);
    let calls = [first, second].map(|region| call_of(size, picture, region));
    let parts = calls.map(|call| answer(group, &call));
    let whole = answer(group, &call);
    let fits = |answer: &Answer, region: &[u8]| match region.contains(&1) {
        true => answer.number == 0,
        false => answer.number == 19 && answer.results == [0; 4],
    };
    let numbers = fits(&parts[0], first) && fits(&parts[1], second) && fits(&whole, &both);
    group.expect(numbers, &call, "0, or 19 and zeros without a sample");
    let [a, b] = parts.map(|part| part.results);
    let adds = |i: usize| a[i].checked_add(b[i]) == Some(whole.results[i]);
    group.expect(adds(0) && adds(1), &call, "regions apart add up");
}

/// A region without the samples of another.
fn without(region: &[u8], other: &[u8]) -> Vec<u8> {
    let left = |(&a, &b): (&u8, &u8)| a * (1 - b);
    region.iter().zip(other).map(left).collect()
}

/// A region beside another without its samples, and beside all that it leaves.
fn expect_parts_added(group: &mut Group, random: &mut Random, size: (usize, usize)) {
    let len = size.0 * size.1;
    let picture = any_samples(random, len);
    let [first, second] = [0; 2].map(|_| any_marks(random, len));
    let all = vec![1; len];
    for other in [&second, &all] {
        expect_added(group, size, &picture, &first, &without(other, &first));
    }
}

pub fn added(group: &mut Group, random: &mut Random) {
    let shape = shots::common_shape(random);
    expect_parts_added(group, random, (shape.w, shape.h));
}

/// The large pictures of the chains.
pub fn large_added(group: &mut Group, random: &mut Random) {
    let shape = shots::large_shape(random, group.case as usize);
    expect_parts_added(group, random, (shape.w, shape.h));
}

/// Every region of 5 by 3, and all that it leaves.
pub fn every_region_added(group: &mut Group, random: &mut Random) {
    let bits = group.case;
    let region: Vec<u8> = (0..15).map(|i| (bits >> i & 1) as u8).collect();
    let picture = any_samples(random, 15);
    let rest = without(&[1; 15], &region);
    expect_added(group, (5, 3), &picture, &region, &rest);
}

/// A captured picture, the region of its rectangles, and its stream.
struct Shot {
    shape: Shape,
    samples: Vec<u16>,
    region: Vec<u8>,
    stream: Vec<u8>,
    region_mark: usize,
}

fn region_of(group: &mut Group, shape: &Shape, numbers: &[u32]) -> Vec<u8> {
    let call = Call::Region {
        numbers: numbers.to_vec(),
        w: shape.w,
        h: shape.h,
        region: held(shape.len()),
    };
    match accepted(group, call) {
        Call::Region { region, .. } => region,
        _ => unreachable!("a call of region"),
    }
}

fn plane_of(group: &mut Group, shape: &Shape, samples: &[u16]) -> Vec<i32> {
    let call = Call::Transform {
        kernel: shape.kernel,
        levels: shape.levels,
        depth: shape.depth,
        w: shape.w,
        h: shape.h,
        samples: samples.to_vec(),
        plane: held(shape.len()),
    };
    match accepted(group, call) {
        Call::Transform { plane, .. } => plane,
        _ => unreachable!("a call of transform"),
    }
}

/// The stream of a plane, and its region mark.
fn written(group: &mut Group, shape: &Shape, plane: Vec<i32>) -> (Vec<u8>, usize) {
    let call = Call::Write {
        plane,
        numbers: shape.numbers.clone(),
        kernel: shape.kernel,
        levels: shape.levels,
        depth: shape.depth,
        w: shape.w,
        h: shape.h,
        mask: held(shape.len()),
        stream: held(14 + 2 * shape.numbers.len() + 3 * shape.len()),
        results: held(3),
    };
    match accepted(group, call) {
        Call::Write {
            stream, results, ..
        } => (stream[..results[0] as usize].to_vec(), results[1] as usize),
        _ => unreachable!("a call of write"),
    }
}

impl Shot {
    fn new(group: &mut Group, random: &mut Random, shape: Shape) -> Shot {
        let samples = shots::samples(random, &shape);
        let plane = plane_of(group, &shape, &samples);
        let region = region_of(group, &shape, &shape.numbers);
        let (stream, region_mark) = written(group, &shape, plane);
        Shot {
            shape,
            samples,
            region,
            stream,
            region_mark,
        }
    }

    /// The stream cut to c bytes.
    fn cut(&self, group: &mut Group, c: usize) -> Vec<u8> {
        let len = self.shape.len();
        let call = Call::Cut {
            stream: self.stream.clone(),
            wanted: c,
            plane: held(len),
            mask: held(len),
            out: held(c),
            results: held(1),
        };
        match accepted(group, call) {
            Call::Cut { out, .. } => out,
            _ => unreachable!("a call of cut"),
        }
    }

    fn shown(&self, group: &mut Group, stream: &[u8]) -> Vec<u16> {
        match accepted(group, levels::stream_call(&self.shape, 0, stream)) {
            Call::ShowStream { shown, .. } => shown,
            _ => unreachable!("a call of show_stream"),
        }
    }

    /// Regions inside the shot's own: that itself, each of the first rectangles, any
    /// samples of it, and one.
    fn inside(&self, group: &mut Group, random: &mut Random) -> Vec<Vec<u8>> {
        let len = self.shape.len();
        let mut regions = vec![self.region.clone()];
        for rectangle in self.shape.numbers.chunks(4).take(3) {
            regions.push(region_of(group, &self.shape, rectangle));
        }
        let outside = without(&vec![1; len], &self.region);
        regions.push(without(&any_marks(random, len), &outside));
        let places: Vec<usize> = (0..len).filter(|&i| self.region[i] == 1).collect();
        if !places.is_empty() {
            let mut one = vec![0; len];
            one[random.pick(&places)] = 1;
            regions.push(one);
        }
        regions
    }
}

/// Any region inside the shot's own has the same brightness in the stream cut from its
/// region mark on, in the whole stream and in the captured picture.
fn expect_same(group: &mut Group, random: &mut Random, shape: Shape) {
    let shot = Shot::new(group, random, shape);
    let size = (shot.shape.w, shot.shape.h);
    let regions = shot.inside(group, random);
    let (mark, total) = (shot.region_mark, shot.stream.len());
    let near = (mark + 1).min(total);
    for c in [mark, near, random.within(mark, total), total] {
        let stream = shot.cut(group, c);
        let shown = shot.shown(group, &stream);
        for region in &regions {
            let call = call_of(size, &shown, region);
            let same = answer(group, &call) == answer(group, &call_of(size, &shot.samples, region));
            group.expect(same, &call, "the captured picture's brightness");
        }
    }
}

pub fn cut_streams(group: &mut Group, random: &mut Random) {
    let largest = random.pick(&[2, 4, 8, 16, 32, 64]);
    let shape = shots::shape(random, largest);
    expect_same(group, random, shape);
}

/// The large pictures of the chains.
pub fn large_cut_streams(group: &mut Group, random: &mut Random) {
    let shape = shots::large_shape(random, group.case as usize);
    expect_same(group, random, shape);
}
