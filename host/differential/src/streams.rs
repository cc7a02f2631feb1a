//! The entries that take a stream: whole, cut, changed and random ones.

use crate::call::Call;
use crate::group::Group;
use crate::guarded::held;
use crate::levels;
use crate::random::Random;
use crate::shots::{self, mend, Written};

/// Every call that takes a stream, over one stream, with buffers of that many
/// samples.
fn compare_all(group: &mut Group, random: &mut Random, stream: &[u8], len: usize) {
    group.compare(Call::Read {
        stream: stream.to_vec(),
        plane: held(len),
        mask: held(len),
        results: held(random.pick(&shots::READ_RESULTS)),
    });
    group.compare(at_some_level(random, stream, len));
    let wanted = random.below(stream.len() + 2);
    group.compare(Call::Cut {
        stream: stream.to_vec(),
        wanted,
        plane: held(len),
        mask: held(len),
        out: held(out_len(random, wanted)),
        results: held(random.pick(&shots::CUT_RESULTS)),
    });
    group.compare(Call::Body {
        stream: stream.to_vec(),
        results: held(random.pick(&shots::BODY_RESULTS)),
    });
    group.compare(Call::Header {
        stream: stream.to_vec(),
        results: held(random.pick(&shots::HEADER_RESULTS)),
    });
    group.compare(Call::Arrived {
        stream: stream.to_vec(),
        results: held(random.pick(&shots::ARRIVED_RESULTS)),
    });
}

/// Exact, longer, too short by one or by much.
fn out_len(random: &mut Random, wanted: usize) -> usize {
    match random.below(6) {
        0 => wanted + random.within(1, 9),
        1 => wanted.saturating_sub(1),
        2 => random.below(wanted + 1),
        _ => wanted,
    }
}

/// Mostly a level that the header has, else one just above its J or far above.
fn some_level(random: &mut Random, stream: &[u8]) -> usize {
    let levels = usize::from(stream.get(6).map_or(0, |&byte| byte.min(6)));
    match random.below(8) {
        0 => levels + 1,
        1 => random.pick(&[6, 64, 256, 1 << 32, 1 << 63, usize::MAX]),
        _ => random.within(0, levels),
    }
}

/// The stream at some level, its plane and mask of that many samples, the
/// buffers of the area mostly as long as the header says.
fn at_some_level(random: &mut Random, stream: &[u8], len: usize) -> Call {
    let r = some_level(random, stream);
    let area = header_area(stream, r);
    let mut area_len = || match random.below(16) {
        0 => area + 1,
        1 => area.saturating_sub(1),
        2 => len,
        3 => 0,
        _ => area,
    };
    Call::ShowStream {
        stream: stream.to_vec(),
        r,
        plane: held(len),
        mask: held(len),
        undone: held(area_len()),
        shown: held(area_len()),
        results: held(random.pick(&shots::READ_RESULTS)),
    }
}

/// Whole streams of every kind, and what the reader must then give back.
pub fn whole(group: &mut Group, random: &mut Random) {
    let shape = shots::common_shape(random);
    let written = shots::some_written(random, shape);
    let call = Call::Read {
        stream: written.stream.clone(),
        plane: held(written.shape.len()),
        mask: held(written.shape.len()),
        results: held(139),
    };
    let (number, answer) = group.compare(call.clone());
    let returned = match &answer {
        Call::Read { plane, .. } => *plane == written.plane,
        _ => false,
    };
    group.expect(number == 0, &call, "a written stream is accepted");
    group.expect(returned, &call, "the reader returns the written plane");
    compare_all(group, random, &written.stream, written.shape.len());
}

/// Result arrays of every length to 150.
pub fn result_lengths(group: &mut Group, random: &mut Random) {
    let written = shots::tiny_written(random);
    let len = written.shape.len();
    for results_len in 0..150 {
        group.compare(Call::Read {
            stream: written.stream.clone(),
            plane: held(len),
            mask: held(len),
            results: held(results_len),
        });
        let r = results_len % (written.shape.levels + 2);
        let mut call = levels::stream_call(&written.shape, r, &written.stream);
        if let Call::ShowStream { results, .. } = &mut call {
            *results = held(results_len);
        }
        group.compare(call);
    }
}

/// At every level buffers of lengths near the area's and near the picture's.
pub fn area_lengths(group: &mut Group, random: &mut Random) {
    let written = shots::tiny_written(random);
    let len = written.shape.len();
    for r in 0..=written.shape.levels {
        let area = written.shape.area_len(r);
        for (undone, shown) in levels::near_lengths(area, len) {
            let lengths = [len, len, undone, shown];
            let call = levels::stream_with_lengths(&written.stream, r, lengths);
            let (number, _) = group.compare(call.clone());
            let expected = match (undone, shown) == (area, area) {
                true => 0,
                false => 5,
            };
            group.expect(
                number == expected,
                &call,
                "0 or 5 under its condition alone",
            );
        }
    }
}

/// Buffers that are not W·H long.
pub fn buffer_lengths(group: &mut Group, random: &mut Random) {
    let written = shots::tiny_written(random);
    let len = written.shape.len();
    let r = random.within(0, written.shape.levels);
    let area = written.shape.area_len(r);
    let lengths = [0, 1, len - 1, len, len + 1, 2 * len];
    for plane_len in lengths {
        for mask_len in lengths {
            group.compare(Call::Read {
                stream: written.stream.clone(),
                plane: held(plane_len),
                mask: held(mask_len),
                results: held(139),
            });
            let lengths = [plane_len, mask_len, area, area];
            group.compare(levels::stream_with_lengths(&written.stream, r, lengths));
            group.compare(Call::Cut {
                stream: written.stream.clone(),
                wanted: written.stream.len(),
                plane: held(plane_len),
                mask: held(mask_len),
                out: held(written.stream.len()),
                results: held(1),
            });
        }
    }
}

/// Every wanted length, and some far above the stream, with output buffers
/// around it.
pub fn every_cut(group: &mut Group, random: &mut Random) {
    let written = shots::tiny_written(random);
    let total = written.stream.len();
    let far = [1 << 32, (1 << 32) + total, 1 << 63, usize::MAX];
    for wanted in (0..total + 3).chain(far) {
        let near = wanted.min(total + 3);
        for out_len in [near, near.saturating_sub(1), total + 2, 0] {
            cut_and_read(group, &written, wanted, out_len);
        }
    }
}

/// Cuts, and reads and cuts again what came out.
fn cut_and_read(group: &mut Group, written: &Written, wanted: usize, out_len: usize) {
    let len = written.shape.len();
    let call = Call::Cut {
        stream: written.stream.clone(),
        wanted,
        plane: held(len),
        mask: held(len),
        out: held(out_len),
        results: held(wanted % 3),
    };
    let (number, answer) = group.compare(call.clone());
    let fits = wanted >= written.region_mark && wanted <= written.stream.len();
    let expected = match (fits, out_len >= wanted) {
        (false, _) => 15,
        (true, false) => 11,
        (true, true) => 0,
    };
    group.expect(
        number == expected,
        &call,
        "0, 11 or 15 under its condition alone",
    );
    let (0, Call::Cut { mut out, .. }) = (number, answer) else {
        return;
    };
    out.truncate(wanted);
    let mut prefix = written.stream[..wanted].to_vec();
    mend(&mut prefix);
    group.expect(
        out == prefix,
        &call,
        "the first bytes with the length mended",
    );
    group.compare(Call::Read {
        stream: out.clone(),
        plane: held(len),
        mask: held(len),
        results: held(139),
    });
    let r = wanted % (written.shape.levels + 1);
    group.compare(levels::stream_call(&written.shape, r, &out));
    group.compare(Call::Cut {
        stream: out,
        wanted: written.region_mark,
        plane: held(len),
        mask: held(len),
        out: held(wanted),
        results: held(1),
    });
}

/// Every plain truncation, with the length field mended and not.
pub fn every_truncation(group: &mut Group, random: &mut Random) {
    let written = shots::tiny_written(random);
    for c in 0..=written.stream.len() {
        let mut stream = written.stream[..c].to_vec();
        compare_all(group, random, &stream, written.shape.len());
        if c >= 4 {
            mend(&mut stream);
            compare_all(group, random, &stream, written.shape.len());
        }
    }
}

/// The first bytes of a stream, as many as may arrive: what is left of them is
/// the stream cut to that length, which is read as the cutter's is.
pub fn what_arrived(group: &mut Group, random: &mut Random) {
    let written = shots::tiny_written(random);
    let total = written.stream.len();
    let header = 14 + 2 * written.shape.numbers.len();
    for c in 0..=total {
        let call = Call::Arrived {
            stream: written.stream[..c].to_vec(),
            results: held(1),
        };
        let (number, answer) = group.compare(call.clone());
        let mut cut = written.stream[..c].to_vec();
        if c >= header {
            mend(&mut cut);
        }
        let Call::Arrived { stream, results } = answer else {
            continue;
        };
        let told = match c >= header {
            true => number == 0 && results == [total as u64],
            false => number == 12 && results == [0],
        };
        group.expect(told, &call, "0 and the length, or 12 within the header");
        group.expect(stream == cut, &call, "the stream cut to what arrived");
        compare_all(group, random, &stream, written.shape.len());
    }
}

/// Length fields around the length, and at both ends of what four bytes hold.
pub fn length_fields(group: &mut Group, random: &mut Random) {
    let written = shots::tiny_written(random);
    let mut stream = written.stream;
    stream.truncate(random.within(0, stream.len()));
    let there = stream.len() as u32;
    let near = there.wrapping_sub(4).wrapping_add(random.below(9) as u32);
    let field = random.pick(&[0, near.wrapping_sub(4), near, 1 << 31, u32::MAX]);
    for (cell, byte) in stream.iter_mut().zip(field.to_be_bytes()) {
        *cell = byte;
    }
    if random.once_in(3) && stream.len() > 12 {
        stream[12] = random.pick(&[0, 1, 2, 3, 255]);
    }
    compare_all(group, random, &stream, written.shape.len());
}

/// Every byte changed to several values, in whole and in cut streams.
pub fn every_byte(group: &mut Group, random: &mut Random) {
    let written = shots::tiny_written(random);
    let mut stream = written.stream.clone();
    if random.once_in(2) {
        let start = 14 + 2 * written.shape.numbers.len();
        stream.truncate(random.within(start, stream.len()));
        mend(&mut stream);
    }
    for place in 0..stream.len() {
        let byte = stream[place];
        let others = [
            0,
            1,
            0xFF,
            byte.wrapping_add(1),
            byte.wrapping_sub(1),
            byte ^ 0x80,
            byte ^ 1 << random.below(8),
            random.number() as u8,
        ];
        for other in others {
            let mut changed = stream.clone();
            changed[place] = other;
            compare_all(group, random, &changed, written.shape.len());
        }
    }
}

/// Streams in which several bytes of the header are changed: the order of the
/// refusals. The length field mostly fits, the rectangles mostly are there.
pub fn several_header_bytes(group: &mut Group, random: &mut Random) {
    let written = shots::tiny_written(random);
    let mut stream = written.stream;
    for _ in 0..random.within(1, 5) {
        let place = random.within(4, 13);
        stream[place] = match place {
            4 => random.pick(&[0, 1, 2, 255]),
            5 => random.pick(&[0, 3, 4, 255]),
            6 => random.pick(&[0, 1, 5, 6, 255]),
            7 => random.pick(&[0, 1, 10, 11, 255]),
            8 | 10 => random.pick(&[0, 16, 17, 255]),
            12 => random.pick(&[0, 1, 32, 33, 255]),
            13 => random.pick(&[0, 22, 23, 255]),
            _ => random.number() as u8,
        };
    }
    let needed = 14 + 8 * stream[12] as usize;
    if stream.len() < needed && !random.once_in(4) {
        let filling = random.pick(&[0, 1, 0xFF]);
        stream.resize(needed + random.below(4), filling);
    }
    if !random.once_in(8) {
        mend(&mut stream);
    }
    let len = match random.below(4) {
        0 => random.below(80),
        1 => header_area(&stream, 0),
        _ => written.shape.w * written.shape.h,
    };
    compare_all(group, random, &stream, len);
}

/// The area at level r of W and H as the header says, if that is small enough
/// for a buffer; 0 if it does not say them.
fn header_area(stream: &[u8], r: usize) -> usize {
    let side = |place: usize| match stream.get(place..place + 2) {
        Some(bytes) => usize::from(bytes[0]) * 256 + usize::from(bytes[1]),
        None => 0,
    };
    let (w, h) = shots::area(side(8), side(10), r);
    (w * h).min(1 << 12)
}

/// Rectangles in the header: empty, outside, near the top of 16 bits.
pub fn header_rectangles(group: &mut Group, random: &mut Random) {
    let mut written = shots::tiny_written(random);
    let count = random.pick(&[1, 2, 31, 32, 33, 34, 255]);
    let (w, h) = (written.shape.w as u16, written.shape.h as u16);
    let mut bytes = Vec::new();
    let wrong = random.below(2 * count);
    for i in 0..count {
        let mut rectangle = [0, 0, 1, 1];
        if i == wrong {
            let limit = random.pick(&[w, h]);
            let number = random.pick(&[0, 1, limit, limit + 1, 1 << 15, u16::MAX, u16::MAX - 1]);
            rectangle[random.below(4)] = number;
            rectangle[random.below(4)] = random.pick(&[0, 1, limit, u16::MAX]);
        }
        bytes.extend(
            rectangle
                .iter()
                .flat_map(|number: &u16| number.to_be_bytes()),
        );
    }
    let start = 14 + 2 * written.shape.numbers.len();
    written.stream.splice(14..start, bytes);
    written.stream[12] = count as u8;
    mend(&mut written.stream);
    compare_all(group, random, &written.stream, written.shape.len());
}

/// A T larger than needed, whole and cut anywhere.
pub fn more_planes(group: &mut Group, random: &mut Random) {
    let written = shots::tiny_written(random);
    let room = 22 - written.stream[13] as usize;
    if room == 0 {
        return;
    }
    let more = random.within(1, room);
    let mut stream = shots::with_more_planes(&written, more);
    let len = written.shape.len();
    let call = Call::Read {
        stream: stream.clone(),
        plane: held(len),
        mask: held(len),
        results: held(139),
    };
    let (number, answer) = group.compare(call.clone());
    let same = matches!(answer, Call::Read { plane, .. } if plane == written.plane);
    group.expect(number == 0 && same, &call, "a larger T is read");
    compare_all(group, random, &stream, len);
    let start = 14 + 2 * written.shape.numbers.len();
    stream.truncate(random.within(start, stream.len()));
    mend(&mut stream);
    compare_all(group, random, &stream, len);
}

/// Each filling bit set, and further bytes behind a complete body.
pub fn filling(group: &mut Group, random: &mut Random) {
    let written = shots::tiny_written(random);
    let len = written.shape.len();
    let [marked, unmarked] = shots::part_lengths(&written);
    let used = (marked + unmarked) % 8;
    if used > 0 {
        for bit in used..8 {
            let mut stream = written.stream.clone();
            *stream.last_mut().expect("a body") |= 0x80 >> bit;
            compare_refused(group, &stream, len);
            compare_all(group, random, &stream, len);
        }
    }
    for further in [1, 2, 8] {
        for byte in [0, 1, 0x80, 0xFF] {
            let mut stream = written.stream.clone();
            stream.resize(stream.len() + further, byte);
            compare_all(group, random, &stream, len);
            mend(&mut stream);
            compare_refused(group, &stream, len);
            compare_all(group, random, &stream, len);
        }
    }
}

fn compare_refused(group: &mut Group, stream: &[u8], len: usize) {
    let call = Call::Read {
        stream: stream.to_vec(),
        plane: held(len),
        mask: held(len),
        results: held(139),
    };
    let (number, _) = group.compare(call.clone());
    group.expect(number == 16, &call, "refusal 16");
    let r = stream.len() % (usize::from(stream[6]) + 1);
    let call = at_level(stream, r, len);
    let (number, _) = group.compare(call.clone());
    group.expect(number == 16, &call, "refusal 16");
}

/// The stream at level r, the buffers of the area as long as the header says.
fn at_level(stream: &[u8], r: usize, len: usize) -> Call {
    let area = header_area(stream, r);
    levels::stream_with_lengths(stream, r, [len, len, area, area])
}

/// Random bytes of every length to 200: as they are, with the length mended,
/// and behind a header that passes.
pub fn random_bytes(group: &mut Group, random: &mut Random) {
    for len in 0..=200 {
        let mut stream = random.bytes(len);
        let area = random.pick(&[0, 1, 4, 64]);
        compare_all(group, random, &stream, area);
        if len < 4 {
            continue;
        }
        mend(&mut stream);
        compare_all(group, random, &stream, area);
        if len < 14 {
            continue;
        }
        stream[4] = 1;
        stream[12] = random.within(0, (len - 14) / 8) as u8;
        mend(&mut stream);
        compare_all(group, random, &stream, area);
        behind_header(group, random, stream);
    }
}

/// Random bits behind a header that the reader accepts.
fn behind_header(group: &mut Group, random: &mut Random, mut stream: Vec<u8>) {
    let shape = shots::tiny_shape(random);
    let start = 14 + 2 * shape.numbers.len();
    if stream.len() < start {
        return;
    }
    let (kernel, levels) = (shape.kernel as u8, shape.levels as u8);
    stream[5..8].copy_from_slice(&[kernel, levels, shape.depth as u8]);
    stream[8..12].copy_from_slice(&[0, shape.w as u8, 0, shape.h as u8]);
    stream[12] = (shape.numbers.len() / 4) as u8;
    stream[13] = random.within(0, 22) as u8;
    for (i, &number) in shape.numbers.iter().enumerate() {
        stream[14 + 2 * i..16 + 2 * i].copy_from_slice(&(number as u16).to_be_bytes());
    }
    compare_all(group, random, &stream, shape.len());
}

/// Every body of up to two bytes for a picture of 2 by 2, with no mark, with
/// all marked, and (3 by 2) with some, T 0 to 3.
pub fn every_short_body(group: &mut Group, _: &mut Random) {
    let body = (group.case as u16).to_be_bytes();
    for (w, rectangles) in [(2, 0), (2, 1), (3, 1)] {
        for planes in 0..4 {
            let mut stream = vec![0, 0, 0, 0, 1, 0, 1, 8, 0, w, 0, 2, rectangles, planes];
            if rectangles == 1 {
                stream.extend([0, 0, 0, 0, 0, 1, 0, 1]);
            }
            stream.extend(body);
            mend(&mut stream);
            let len = 2 * usize::from(w);
            for r in [0, 1] {
                group.compare(at_level(&stream, r, len));
            }
            group.compare(Call::Read {
                stream,
                plane: held(len),
                mask: held(len),
                results: held(4),
            });
        }
    }
}
