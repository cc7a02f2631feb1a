//! OpenJPEG's lossless encoder and decoder, in a program of its own that the
//! script compiles where its library is installed and names in OUTSIDE_CODEC
//! (tools/outside_codec).

use std::env;

use benchmark::stream::Setting;

use crate::outside::{self, to_bytes};

/// Above the eleven bit planes that a band may have at eight bits, so that any
/// background would stand below the region. Its decoder takes shift and bit planes
/// of a code block up to 30 together.
const SHIFT: i32 = 12;

/// Best times of encoding and decoding, the codestream's length, and the length at
/// which a rectangle is exact, if it was asked for.
#[derive(Clone, Copy)]
pub struct Outside {
    pub encode: f64,
    pub decode: f64,
    pub length: usize,
    pub exact: Option<usize>,
}

impl Outside {
    /// The better times of two runs of the same picture.
    pub fn better(self, other: Outside) -> Outside {
        assert_eq!(self.length, other.length, "OpenJPEG: not the same twice");
        Outside {
            encode: self.encode.min(other.encode),
            decode: self.decode.min(other.decode),
            length: self.length,
            exact: self.exact.or(other.exact),
        }
    }
}

/// With its one component as region of interest if `region`; the numbers are those of
/// the rectangle to be exact, or none. The program fails if its decoder gives another
/// picture. None if the program is not there.
pub fn run(setting: Setting, region: bool, numbers: &[u32], samples: &[u16]) -> Option<Outside> {
    let program = env::var_os("OUTSIDE_CODEC")?;
    let shift = if region { SHIFT } else { 0 };
    let [w, h, levels] = [setting.size.w, setting.size.h, setting.levels].map(|n| n as i32);
    let mut bytes = to_bytes(&[w, h, levels, shift]);
    let picture: Vec<i32> = samples.iter().map(|&s| i32::from(s)).collect();
    bytes.extend(to_bytes(&picture));
    let answer = outside::run(&program, samples.len(), numbers, bytes);
    let [encode, decode, exact @ ..] = &answer.figures[..] else {
        panic!("OpenJPEG's codec told no times");
    };
    Some(Outside {
        encode: *encode,
        decode: *decode,
        length: answer.bytes.len(),
        exact: exact.first().map(|&length| length as usize),
    })
}
