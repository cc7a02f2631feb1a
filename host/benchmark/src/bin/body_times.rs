//! Times the writer and the reader of the library that it is linked with, whole
//! calls, kernel 2 and five levels. The benchmark runs it twice, linked with the
//! base and linked with the library of today: two libraries of the same names
//! cannot be in one program.
//!
//! Usage: body_times WIDTH HEIGHT [X Y WIDTH HEIGHT]..., the picture's size and
//! the rectangles. One line to standard output: a hash of the stream, its length,
//! the bits of its body, and the best times of writing and reading.

use std::env;
use std::hash::{DefaultHasher, Hasher};

use benchmark::size::Size;
use benchmark::stream::{body_bits, write, Buffers, Setting};
use benchmark::timing::Rounds;
use benchmark::{accepted, picture};

/// The stream's bytes as one number: the same bytes, the same number.
fn hash(stream: &[u8]) -> u64 {
    let mut hasher = DefaultHasher::new();
    hasher.write(stream);
    hasher.finish()
}

/// The best times of writing and reading; what is read must be what was written.
fn times(setting: Setting, numbers: &[u32], written: &mut Buffers) -> [f64; 2] {
    accepted(write(bindings::write, setting, numbers, written).number);
    let stream = written.stream.clone();
    let mut read = Buffers::new(setting.size.samples(), 0);
    let mut results = [0; 139];
    let times = Rounds::SHARED.best([
        &mut || accepted(write(bindings::write, setting, numbers, written).number),
        &mut || {
            let (plane, mask) = (&mut read.plane, &mut read.mask);
            accepted(bindings::read(&stream, plane, mask, &mut results));
        },
    ]);
    assert!(stream == written.stream, "write: not the same twice");
    assert!(
        read.plane == written.plane && read.mask == written.mask,
        "read: another plane or mask than was written"
    );
    times
}

fn main() {
    let number = |word: String| word.parse().expect("a number of 32 bits");
    let words: Vec<u32> = env::args().skip(1).map(number).collect();
    let [w, h, numbers @ ..] = words.as_slice() else {
        panic!("usage: body_times WIDTH HEIGHT [X Y WIDTH HEIGHT]...");
    };
    let size = Size::new(*w as usize, *h as usize);
    let setting = Setting::longest(size);
    let mut buffers = Buffers::unwritten(setting, numbers, &picture(size.w, size.h));
    let [write, read] = times(setting, numbers, &mut buffers);
    let (hash, length) = (hash(&buffers.stream), buffers.stream.len());
    let bits = body_bits(&buffers.plane);
    println!("{hash} {length} {bits} {write:.6} {read:.6}");
}
