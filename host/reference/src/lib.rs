//! The exact-region panel shot a second time, written without a look at the
//! proved code and for comparison alone: direct code, no care for time or
//! space. docs/FORMAT.md has its terms.
//!
//! Every function takes the parameters of the C interface's function of that
//! name, a slice for each pointer and length, and returns the refusal's
//! number, 0 if none. Result number i goes into `results[i]` where there is
//! such a cell.

mod levels;
mod line;
mod refusal;
mod stream;

use refusal::Tested;
use stream::{Header, HEADER_RESULTS};

/// Result numbers of the reader: four, then those of the header.
pub const READ_RESULTS: usize = 4 + HEADER_RESULTS;

/// Puts the result numbers into the cells that are there.
fn put(results: &mut [u64], numbers: &[u64]) {
    for (cell, &number) in results.iter_mut().zip(numbers) {
        *cell = number;
    }
}

/// Back to 32 bits; the format's limits keep every number within them.
fn narrow(numbers: &[i64], out: &mut [i32]) {
    for (cell, &number) in out.iter_mut().zip(numbers) {
        *cell = i32::try_from(number).expect("an accepted plane stays in 32 bits");
    }
}

/// One byte a sample, 1 inside any rectangle.
fn region_of(numbers: &[u32], w: usize, h: usize) -> Vec<u8> {
    let mut region = vec![0; w * h];
    for rectangle in numbers.chunks(4) {
        let [x, y, width, height] = [0, 1, 2, 3].map(|i| rectangle[i] as usize);
        for row in y..y + height {
            for column in x..x + width {
                region[row * w + column] = 1;
            }
        }
    }
    region
}

fn mask_of(region: &[u8], kernel: usize, levels: usize, w: usize, h: usize) -> Vec<u8> {
    let mut marks: Vec<bool> = region.iter().map(|&byte| byte == 1).collect();
    levels::forward(&mut marks, levels, w, h, |x| line::marks(kernel, x));
    marks.into_iter().map(u8::from).collect()
}

/// The picture at level r: what stands in its area when the deepest J − r levels
/// are undone.
fn picture_at(
    plane: &[i32],
    kernel: usize,
    levels: usize,
    r: usize,
    w: usize,
    h: usize,
) -> Vec<i64> {
    let mut numbers: Vec<i64> = plane.iter().map(|&c| i64::from(c)).collect();
    levels::backward(&mut numbers, r..levels, w, h, |x| line::backward(kernel, x));
    let (width, height) = levels::area(w, h, r);
    let rows = numbers.chunks(w).take(height);
    rows.flat_map(|row| row[..width].to_vec()).collect()
}

/// Below the range to 0, above it to its top.
fn bring_into_range(undone: &[i32], depth: usize, shown: &mut [u16]) {
    let top = (1 << depth) - 1;
    for (sample, &number) in shown.iter_mut().zip(undone) {
        *sample = number.clamp(0, top) as u16;
    }
}

fn count_marks(mask: &[u8]) -> u64 {
    mask.iter().map(|&byte| u64::from(byte)).sum()
}

pub fn region(numbers: &[u32], w: usize, h: usize, region: &mut [u8]) -> u64 {
    let tested = || -> Tested {
        refusal::sides(w, h)?;
        refusal::rectangles(numbers, w, h)?;
        refusal::length(region.len(), w, h)
    };
    if let Err(number) = tested() {
        return number;
    }
    region.copy_from_slice(&region_of(numbers, w, h));
    0
}

pub fn mask(
    kernel: usize,
    levels: usize,
    w: usize,
    h: usize,
    region: &[u8],
    mask: &mut [u8],
) -> u64 {
    let tested = || -> Tested {
        refusal::kernel(kernel)?;
        refusal::levels(levels)?;
        refusal::sides(w, h)?;
        refusal::length(region.len(), w, h)?;
        refusal::length(mask.len(), w, h)?;
        refusal::marks(region)
    };
    if let Err(number) = tested() {
        return number;
    }
    mask.copy_from_slice(&mask_of(region, kernel, levels, w, h));
    0
}

pub fn join(w: usize, h: usize, first: &[u8], second: &[u8], joined: &mut [u8]) -> u64 {
    let tested = || -> Tested {
        refusal::sides(w, h)?;
        for len in [first.len(), second.len(), joined.len()] {
            refusal::length(len, w, h)?;
        }
        refusal::marks(first)?;
        refusal::marks(second)
    };
    if let Err(number) = tested() {
        return number;
    }
    for (place, byte) in joined.iter_mut().enumerate() {
        *byte = u8::from(first[place] == 1 || second[place] == 1);
    }
    0
}

pub fn transform(
    kernel: usize,
    levels: usize,
    depth: usize,
    w: usize,
    h: usize,
    samples: &[u16],
    plane: &mut [i32],
) -> u64 {
    let tested = || -> Tested {
        refusal::kernel(kernel)?;
        refusal::levels(levels)?;
        refusal::depth(depth)?;
        refusal::sides(w, h)?;
        refusal::length(samples.len(), w, h)?;
        refusal::length(plane.len(), w, h)?;
        refusal::samples(samples, depth)
    };
    if let Err(number) = tested() {
        return number;
    }
    let mut numbers: Vec<i64> = samples.iter().map(|&s| i64::from(s)).collect();
    levels::forward(&mut numbers, levels, w, h, |x| line::forward(kernel, x));
    narrow(&numbers, plane);
    0
}

pub fn undo(
    kernel: usize,
    levels: usize,
    w: usize,
    h: usize,
    plane: &[i32],
    undone: &mut [i32],
) -> u64 {
    let tested = || -> Tested {
        refusal::kernel(kernel)?;
        refusal::levels(levels)?;
        refusal::sides(w, h)?;
        refusal::length(plane.len(), w, h)?;
        refusal::length(undone.len(), w, h)?;
        refusal::magnitudes(plane)
    };
    if let Err(number) = tested() {
        return number;
    }
    let mut numbers: Vec<i64> = plane.iter().map(|&c| i64::from(c)).collect();
    levels::backward(&mut numbers, 0..levels, w, h, |x| line::backward(kernel, x));
    narrow(&numbers, undone);
    0
}

pub fn show(depth: usize, w: usize, h: usize, undone: &[i32], shown: &mut [u16]) -> u64 {
    let tested = || -> Tested {
        refusal::depth(depth)?;
        refusal::sides(w, h)?;
        refusal::length(undone.len(), w, h)?;
        refusal::length(shown.len(), w, h)
    };
    if let Err(number) = tested() {
        return number;
    }
    bring_into_range(undone, depth, shown);
    0
}

#[allow(clippy::too_many_arguments)]
pub fn show_level(
    kernel: usize,
    levels: usize,
    r: usize,
    depth: usize,
    w: usize,
    h: usize,
    plane: &[i32],
    undone: &mut [i32],
    shown: &mut [u16],
) -> u64 {
    let tested = || -> Tested {
        refusal::kernel(kernel)?;
        refusal::levels(levels)?;
        refusal::level(r, levels)?;
        refusal::depth(depth)?;
        refusal::sides(w, h)?;
        let (width, height) = levels::area(w, h, r);
        refusal::length(plane.len(), w, h)?;
        refusal::length(undone.len(), width, height)?;
        refusal::length(shown.len(), width, height)?;
        refusal::magnitudes(plane)
    };
    if let Err(number) = tested() {
        return number;
    }
    narrow(&picture_at(plane, kernel, levels, r, w, h), undone);
    bring_into_range(undone, depth, shown);
    0
}

pub fn brightness(w: usize, h: usize, picture: &[u16], region: &[u8], results: &mut [u64]) -> u64 {
    put(results, &[0; 4]);
    let tested = || -> Tested {
        refusal::sides(w, h)?;
        refusal::length(picture.len(), w, h)?;
        refusal::length(region.len(), w, h)?;
        refusal::marks(region)?;
        refusal::without_sample(region)
    };
    if let Err(number) = tested() {
        return number;
    }
    let inside = (0..w * h).filter(|&place| region[place] == 1);
    let samples: Vec<u64> = inside.map(|place| u64::from(picture[place])).collect();
    let (number, sum) = (samples.len() as u64, samples.iter().sum::<u64>());
    put(results, &[number, sum, sum / number, sum % number]);
    0
}

pub fn truncate(q: usize, w: usize, h: usize, mask: &[u8], plane: &mut [i32]) -> u64 {
    let tested = || -> Tested {
        refusal::dropped(q)?;
        refusal::sides(w, h)?;
        refusal::length(mask.len(), w, h)?;
        refusal::length(plane.len(), w, h)?;
        refusal::marks(mask)?;
        refusal::magnitudes(plane)
    };
    if let Err(number) = tested() {
        return number;
    }
    let step = 1 << q;
    for (c, &mark) in plane.iter_mut().zip(mask) {
        if mark == 0 {
            *c = c.signum() * (c.abs() / step * step);
        }
    }
    0
}

#[allow(clippy::too_many_arguments)]
pub fn write(
    plane: &[i32],
    numbers: &[u32],
    kernel: usize,
    levels: usize,
    depth: usize,
    w: usize,
    h: usize,
    mask: &mut [u8],
    stream: &mut [u8],
    results: &mut [u64],
) -> u64 {
    put(results, &[0; 3]);
    let tested = || -> Tested {
        refusal::kernel(kernel)?;
        refusal::levels(levels)?;
        refusal::depth(depth)?;
        refusal::sides(w, h)?;
        refusal::rectangles(numbers, w, h)?;
        refusal::length(plane.len(), w, h)?;
        refusal::length(mask.len(), w, h)?;
        refusal::magnitudes(plane)
    };
    if let Err(number) = tested() {
        return number;
    }
    mask.copy_from_slice(&mask_of(&region_of(numbers, w, h), kernel, levels, w, h));
    let header = Header {
        kernel,
        levels,
        depth,
        w,
        h,
        planes: stream::plane_count(plane),
        numbers: numbers.to_vec(),
    };
    let (body, marked) = stream::encode(plane, mask, header.planes);
    let start = stream::body_start(numbers.len() / 4);
    let total = start + body.len();
    if stream.len() < total {
        put(results, &[total as u64]);
        return 11;
    }
    stream[..start].copy_from_slice(&stream::header_bytes(&header, total));
    stream[start..total].copy_from_slice(&body);
    put(
        results,
        &[total as u64, (start + marked) as u64, count_marks(mask)],
    );
    0
}

/// What the reader returns beside plane and mask.
struct Answer {
    header: Header,
    marks: u64,
    whole: bool,
    region_mark: usize,
    q: usize,
}

impl Answer {
    fn results(&self) -> Vec<u64> {
        let mut results = vec![
            self.marks,
            u64::from(self.whole),
            self.region_mark as u64,
            self.q as u64,
        ];
        results.extend(self.header.results());
        results
    }
}

/// The reader without its result cells; showing and the cutter begin with it.
fn read_stream(stream: &[u8], plane: &mut [i32], mask: &mut [u8]) -> Result<Answer, u64> {
    let (header, start) = stream::parse(stream)?;
    let (w, h) = (header.w, header.h);
    refusal::length(plane.len(), w, h)?;
    refusal::length(mask.len(), w, h)?;
    let region = region_of(&header.numbers, w, h);
    let marks = mask_of(&region, header.kernel, header.levels, w, h);
    let decoded = match stream::decode(&stream[start..], &marks, header.planes) {
        Ok(decoded) => decoded,
        Err(number) => {
            plane.fill(0);
            mask.fill(0);
            return Err(number);
        }
    };
    narrow(&decoded.plane, plane);
    mask.copy_from_slice(&marks);
    Ok(Answer {
        header,
        marks: count_marks(mask),
        whole: decoded.whole,
        region_mark: if decoded.whole {
            start + decoded.marked
        } else {
            0
        },
        q: decoded.q,
    })
}

pub fn read(stream: &[u8], plane: &mut [i32], mask: &mut [u8], results: &mut [u64]) -> u64 {
    match read_stream(stream, plane, mask) {
        Ok(answer) => {
            put(results, &answer.results());
            0
        }
        Err(number) => {
            put(results, &[0; READ_RESULTS]);
            number
        }
    }
}

pub fn show_stream(
    stream: &[u8],
    r: usize,
    plane: &mut [i32],
    mask: &mut [u8],
    undone: &mut [i32],
    shown: &mut [u16],
    results: &mut [u64],
) -> u64 {
    put(results, &[0; READ_RESULTS]);
    let tested = || -> Tested {
        let (header, _) = stream::parse_at(stream, r)?;
        let (width, height) = levels::area(header.w, header.h, r);
        refusal::length(undone.len(), width, height)?;
        refusal::length(shown.len(), width, height)
    };
    // The reader tests the header again, then its own buffers and the body.
    let answer = match tested().and_then(|()| read_stream(stream, plane, mask)) {
        Ok(answer) => answer,
        Err(number) => return number,
    };
    put(results, &answer.results());
    let header = answer.header;
    let (kernel, levels) = (header.kernel, header.levels);
    let numbers = picture_at(plane, kernel, levels, r, header.w, header.h);
    narrow(&numbers, undone);
    bring_into_range(undone, header.depth, shown);
    0
}

pub fn cut(
    stream: &[u8],
    wanted: usize,
    plane: &mut [i32],
    mask: &mut [u8],
    out: &mut [u8],
    results: &mut [u64],
) -> u64 {
    put(results, &[0]);
    let answer = match read_stream(stream, plane, mask) {
        Ok(answer) => answer,
        Err(number) => return number,
    };
    if !answer.whole || wanted < answer.region_mark || wanted > stream.len() {
        return 15;
    }
    put(results, &[wanted as u64]);
    if out.len() < wanted {
        return 11;
    }
    out[..wanted].copy_from_slice(&stream[..wanted]);
    out[..4].copy_from_slice(&(wanted as u32 - 4).to_be_bytes());
    0
}

pub fn body(stream: &[u8], results: &mut [u64]) -> u64 {
    match stream::find_body(stream) {
        Ok(start) => {
            put(results, &[start as u64, (stream.len() - start) as u64]);
            0
        }
        Err(number) => {
            put(results, &[0; 2]);
            number
        }
    }
}

pub fn arrived(stream: &mut [u8], results: &mut [u64]) -> u64 {
    let arrived = stream::arrive(stream);
    put(results, &[arrived.unwrap_or(0)]);
    arrived.err().unwrap_or(0)
}

pub fn header(stream: &[u8], results: &mut [u64]) -> u64 {
    match stream::parse(stream) {
        Ok((header, _)) => {
            put(results, &header.results());
            0
        }
        Err(number) => {
            put(results, &[0; HEADER_RESULTS]);
            number
        }
    }
}
