//! The stream: header and body, written and read bit by bit.

use crate::refusal;

/// What stands before the rectangles.
const FIXED: usize = 14;

/// Numbers of a header: seven, then four for each of 32 rectangles.
pub const HEADER_RESULTS: usize = 7 + 4 * refusal::MOST_RECTANGLES;

/// What the header says, its rectangles as x, y, width, height in turn.
pub struct Header {
    pub kernel: usize,
    pub levels: usize,
    pub depth: usize,
    pub w: usize,
    pub h: usize,
    pub planes: usize,
    pub numbers: Vec<u32>,
}

impl Header {
    /// Its seven numbers, then four for each of 32 rectangles, 0 behind the
    /// last.
    pub fn results(&self) -> Vec<u64> {
        let mut results = vec![
            self.kernel as u64,
            self.levels as u64,
            self.depth as u64,
            self.w as u64,
            self.h as u64,
            self.planes as u64,
            self.numbers.len() as u64 / 4,
        ];
        results.extend(self.numbers.iter().map(|&number| u64::from(number)));
        results.resize(HEADER_RESULTS, 0);
        results
    }
}

/// Bytes before the body.
pub fn body_start(rectangles: usize) -> usize {
    FIXED + 8 * rectangles
}

fn number(stream: &[u8], place: usize, bytes: usize) -> u64 {
    stream[place..place + bytes]
        .iter()
        .fold(0, |number, &byte| number * 256 + u64::from(byte))
}

/// The place where the body begins, if the header is whole.
fn whole_header(stream: &[u8]) -> Option<usize> {
    let start = body_start(*stream.get(12)? as usize);
    if stream.len() < FIXED || stream.len() < start {
        return None;
    }
    Some(start)
}

/// What a call that broke off left: gives the length that was sent, and sets
/// a length field that is larger than what is there. Refusal 12 for a header
/// that is not whole, and for more bytes than the length field says.
pub fn arrive(stream: &mut [u8]) -> Result<u64, u64> {
    whole_header(stream).ok_or(12u64)?;
    let field = number(stream, 0, 4);
    let there = stream.len() as u64 - 4;
    if field < there {
        return Err(12);
    }
    if field > there {
        stream[..4].copy_from_slice(&(there as u32).to_be_bytes());
    }
    Ok(field + 4)
}

/// Refusals 12 and 13; gives the place where the body begins.
pub fn find_body(stream: &[u8]) -> Result<usize, u64> {
    let start = whole_header(stream).ok_or(12u64)?;
    if number(stream, 0, 4) != stream.len() as u64 - 4 {
        return Err(12);
    }
    if stream[4] != 1 {
        return Err(13);
    }
    Ok(start)
}

/// Refusals 12, 13, 1, 2, 3, 4, 7, 8 and 14; gives the header and the place
/// where the body begins.
pub fn parse(stream: &[u8]) -> Result<(Header, usize), u64> {
    parse_at(stream, 0) // level 0 is above no J
}

/// The same for a stream that is to be shown at level r: refusals 12, 13, 1, 2,
/// 17, 3, 4, 7, 8 and 14.
pub fn parse_at(stream: &[u8], r: usize) -> Result<(Header, usize), u64> {
    let start = find_body(stream)?;
    let header = Header {
        kernel: stream[5] as usize,
        levels: stream[6] as usize,
        depth: stream[7] as usize,
        w: number(stream, 8, 2) as usize,
        h: number(stream, 10, 2) as usize,
        planes: stream[13] as usize,
        numbers: (FIXED..start)
            .step_by(2)
            .map(|place| number(stream, place, 2) as u32)
            .collect(),
    };
    refusal::kernel(header.kernel)?;
    refusal::levels(header.levels)?;
    refusal::level(r, header.levels)?;
    refusal::depth(header.depth)?;
    refusal::sides(header.w, header.h)?;
    refusal::rectangles(&header.numbers, header.w, header.h)?;
    refusal::planes(header.planes)?;
    Ok((header, start))
}

/// The header's bytes for a stream of that total length.
pub fn header_bytes(header: &Header, total: usize) -> Vec<u8> {
    let mut bytes = Vec::new();
    bytes.extend((total as u32 - 4).to_be_bytes());
    bytes.extend([1, header.kernel as u8]);
    bytes.extend([header.levels as u8, header.depth as u8]);
    bytes.extend((header.w as u16).to_be_bytes());
    bytes.extend((header.h as u16).to_be_bytes());
    bytes.extend([(header.numbers.len() / 4) as u8, header.planes as u8]);
    for &number in &header.numbers {
        bytes.extend((number as u16).to_be_bytes());
    }
    bytes
}

/// Binary digits of the largest magnitude, 0 for an all-zero plane.
pub fn plane_count(plane: &[i32]) -> usize {
    let largest = plane.iter().map(|c| c.unsigned_abs()).max().unwrap_or(0);
    (u32::BITS - largest.leading_zeros()) as usize
}

/// Bits, highest bit of a byte first, the last byte filled with zeros.
struct BitWriter {
    bytes: Vec<u8>,
    bits: usize,
}

impl BitWriter {
    fn push(&mut self, bit: bool) {
        if self.bits % 8 == 0 {
            self.bytes.push(0);
        }
        if bit {
            self.bytes[self.bits / 8] |= 0x80 >> (self.bits % 8);
        }
        self.bits += 1;
    }
}

/// Writes the marked coefficients if `wanted` is 1, the unmarked if it is 0.
fn write_part(out: &mut BitWriter, plane: &[i32], mask: &[u8], wanted: u8, planes: usize) {
    for p in (0..planes).rev() {
        for (&c, &mark) in plane.iter().zip(mask) {
            if mark != wanted {
                continue;
            }
            let upto = c.unsigned_abs() >> p;
            out.push(upto & 1 == 1);
            if upto == 1 {
                out.push(c < 0); // the first 1
            }
        }
    }
}

/// The body, and how many of its bytes hold the marked part.
pub fn encode(plane: &[i32], mask: &[u8], planes: usize) -> (Vec<u8>, usize) {
    let mut out = BitWriter {
        bytes: Vec::new(),
        bits: 0,
    };
    write_part(&mut out, plane, mask, 1, planes);
    let marked = out.bytes.len();
    write_part(&mut out, plane, mask, 0, planes);
    (out.bytes, marked)
}

/// The place in a lent body.
struct BitReader<'a> {
    body: &'a [u8],
    bits: usize,
}

impl BitReader<'_> {
    fn next(&mut self) -> Option<bool> {
        let byte = *self.body.get(self.bits / 8)?;
        let bit = byte >> (7 - self.bits % 8) & 1 == 1;
        self.bits += 1;
        Some(bit)
    }

    /// A non-zero filling bit or a further byte behind the place.
    fn has_more_than_filling(&mut self) -> bool {
        if self.body.len() > self.bits.div_ceil(8) {
            return true;
        }
        while let Some(bit) = self.next() {
            if bit {
                return true;
            }
        }
        false
    }
}

/// Reads the marked or the unmarked coefficients into the plane and gives the
/// number of planes wholly received. Bits not received are 0.
fn read_part(
    bits: &mut BitReader,
    plane: &mut [i64],
    mask: &[u8],
    wanted: u8,
    planes: usize,
) -> usize {
    for p in (0..planes).rev() {
        let received = planes - 1 - p;
        for (c, &mark) in plane.iter_mut().zip(mask) {
            if mark != wanted {
                continue;
            }
            match bits.next() {
                None => return received,
                Some(false) => {}
                Some(true) if *c == 0 => match bits.next() {
                    // A first 1 whose sign did not arrive counts as 0.
                    None => return received,
                    Some(negative) => *c = if negative { -(1 << p) } else { 1 << p },
                },
                Some(true) => *c += c.signum() << p,
            }
        }
    }
    planes
}

/// What a body, cut or not, holds.
pub struct Decoded {
    pub plane: Vec<i64>,
    pub whole: bool,
    /// Bytes of the body that hold the marked part; counts only if it is whole.
    pub marked: usize,
    pub q: usize,
}

/// Reads a body; refusal 16 after a complete one.
pub fn decode(body: &[u8], mask: &[u8], planes: usize) -> Result<Decoded, u64> {
    let mut bits = BitReader { body, bits: 0 };
    let mut plane = vec![0; mask.len()];
    let whole = read_part(&mut bits, &mut plane, mask, 1, planes) == planes;
    let marked = bits.bits.div_ceil(8);
    let mut q = planes;
    if whole {
        q = planes - read_part(&mut bits, &mut plane, mask, 0, planes);
        if q == 0 && bits.has_more_than_filling() {
            return Err(16);
        }
    }
    Ok(Decoded {
        plane,
        whole,
        marked,
        q,
    })
}
