//! Whole chains: transform, write, cut, read, undo, show, with the region
//! compared with the picture.

use crate::call::Call;
use crate::group::Group;
use crate::guarded::held;
use crate::levels;
use crate::random::Random;
use crate::shots::{self, mend, Shape};

/// A picture with its region and the stream written from it.
struct Chain {
    shape: Shape,
    samples: Vec<u16>,
    region: Vec<u8>,
    mask: Vec<u8>,
    plane: Vec<i32>,
    stream: Vec<u8>,
    region_mark: usize,
}

fn begin(group: &mut Group, random: &mut Random, shape: Shape) -> Option<Chain> {
    let samples = shots::samples(random, &shape);
    let len = shape.len();
    let (_, region) = group.compare(Call::Region {
        numbers: shape.numbers.clone(),
        w: shape.w,
        h: shape.h,
        region: held(len),
    });
    let (_, transformed) = group.compare(Call::Transform {
        kernel: shape.kernel,
        levels: shape.levels,
        depth: shape.depth,
        w: shape.w,
        h: shape.h,
        samples: samples.clone(),
        plane: held(len),
    });
    let (Call::Region { region, .. }, Call::Transform { plane, .. }) = (region, transformed) else {
        return None;
    };
    let call = Call::Write {
        plane: plane.clone(),
        numbers: shape.numbers.clone(),
        kernel: shape.kernel,
        levels: shape.levels,
        depth: shape.depth,
        w: shape.w,
        h: shape.h,
        mask: held(len),
        stream: held(14 + 2 * shape.numbers.len() + 3 * len),
        results: held(3),
    };
    let (number, answer) = group.compare(call.clone());
    group.expect(
        number == 0,
        &call,
        "the plane of an accepted picture is written",
    );
    let Call::Write {
        mask,
        mut stream,
        results,
        ..
    } = answer
    else {
        return None;
    };
    stream.truncate(results[0] as usize);
    Some(Chain {
        shape,
        samples,
        region,
        mask,
        plane,
        stream,
        region_mark: results[1] as usize,
    })
}

/// Undoes and shows a plane; the region must show the picture.
fn show_region(group: &mut Group, chain: &Chain, plane: Vec<i32>) {
    let shape = &chain.shape;
    let (_, undone) = group.compare(Call::Undo {
        kernel: shape.kernel,
        levels: shape.levels,
        w: shape.w,
        h: shape.h,
        plane,
        undone: held(shape.len()),
    });
    let Call::Undo { undone, .. } = undone else {
        return;
    };
    let call = Call::Show {
        depth: shape.depth,
        w: shape.w,
        h: shape.h,
        undone,
        shown: held(shape.len()),
    };
    let (_, answer) = group.compare(call.clone());
    let Call::Show { shown, .. } = answer else {
        return;
    };
    expect_region(group, chain, &call, &shown);
}

fn expect_region(group: &mut Group, chain: &Chain, call: &Call, shown: &[u16]) {
    let same = |i: usize| chain.region[i] == 0 || shown[i] == chain.samples[i];
    let exact = (0..chain.shape.len()).all(same);
    group.expect(exact, call, "the region shows the picture");
}

/// Cuts to c bytes, reads, undoes and shows.
fn cut_and_show(group: &mut Group, chain: &Chain, c: usize) {
    let len = chain.shape.len();
    let call = Call::Cut {
        stream: chain.stream.clone(),
        wanted: c,
        plane: held(len),
        mask: held(len),
        out: held(c),
        results: held(1),
    };
    let (number, answer) = group.compare(call.clone());
    group.expect(number == 0, &call, "a cut behind the region mark is made");
    let Call::Cut { out, .. } = answer else {
        return;
    };
    let call = Call::Read {
        stream: out,
        plane: held(len),
        mask: held(len),
        results: held(139),
    };
    let (number, answer) = group.compare(call.clone());
    group.expect(number == 0, &call, "a cut stream is accepted");
    if let Call::Read { stream, plane, .. } = answer {
        show_region(group, chain, plane);
        show_in_one(group, chain, &stream, c);
    }
}

/// Reads, undoes and shows in one call, at a level from 1 to J + 1 that c picks and
/// at level 0, where the region must show the picture.
fn show_in_one(group: &mut Group, chain: &Chain, stream: &[u8], c: usize) {
    let r = 1 + c % (chain.shape.levels + 1);
    group.compare(levels::stream_call(&chain.shape, r, stream));
    let call = levels::stream_call(&chain.shape, 0, stream);
    let (_, answer) = group.compare(call.clone());
    if let Call::ShowStream { shown, .. } = answer {
        expect_region(group, chain, &call, &shown);
    }
}

/// Drops planes instead of cutting; the region stays as well.
fn truncate_and_show(group: &mut Group, chain: &Chain, q: usize) {
    let (_, answer) = group.compare(Call::Truncate {
        q,
        w: chain.shape.w,
        h: chain.shape.h,
        mask: chain.mask.clone(),
        plane: chain.plane.clone(),
    });
    if let Call::Truncate { plane, .. } = answer {
        show_region(group, chain, plane);
    }
}

/// Small pictures, every length from the region mark to the total.
pub fn every_length(group: &mut Group, random: &mut Random) {
    let largest = random.pick(&[2, 4, 8, 16]);
    let shape = shots::shape(random, largest);
    let Some(chain) = begin(group, random, shape) else {
        return;
    };
    let step = (chain.stream.len() - chain.region_mark) / 64 + 1;
    for c in (chain.region_mark..chain.stream.len()).step_by(step) {
        cut_and_show(group, &chain, c);
    }
    cut_and_show(group, &chain, chain.stream.len());
    for q in 0..=22 {
        truncate_and_show(group, &chain, q);
    }
}

/// Middle sizes, few lengths.
pub fn some_lengths(group: &mut Group, random: &mut Random) {
    let largest = random.pick(&[32, 64, 128]);
    let shape = shots::shape(random, largest);
    a_few_cuts(group, random, shape);
}

fn a_few_cuts(group: &mut Group, random: &mut Random, shape: Shape) {
    if let Some(chain) = begin(group, random, shape) {
        cut_at_a_few(group, random, &chain);
    }
}

fn cut_at_a_few(group: &mut Group, random: &mut Random, chain: &Chain) {
    let total = chain.stream.len();
    for c in [
        chain.region_mark,
        random.within(chain.region_mark, total),
        total,
    ] {
        cut_and_show(group, chain, c);
    }
    let q = random.within(0, 12);
    truncate_and_show(group, chain, q);
}

/// Large pictures for every kernel.
pub fn large(group: &mut Group, random: &mut Random) {
    let shape = shots::large_shape(random, group.case as usize);
    a_few_cuts(group, random, shape);
}

/// Large pictures in which few coefficients are marked, or all but few; also streams
/// that end in their marked part.
pub fn few(group: &mut Group, random: &mut Random) {
    let shape = shots::few_shape(random, group.case as usize);
    let front = 14 + 2 * shape.numbers.len();
    let Some(chain) = begin(group, random, shape) else {
        return;
    };
    cut_at_a_few(group, random, &chain);
    for c in [front, random.within(front, chain.region_mark)] {
        let mut stream = chain.stream[..c].to_vec();
        mend(&mut stream);
        group.compare(Call::Read {
            stream,
            plane: held(chain.shape.len()),
            mask: held(chain.shape.len()),
            results: held(139),
        });
    }
}
