//! An outside program: samples to its standard input, an answer from its standard
//! output and its own figures from standard error.

use std::ffi::OsStr;
use std::io::{Read, Write};
use std::process::{Command, Stdio};
use std::thread;

use benchmark::timing;

/// Numbers of 32 bits in the machine's own byte order.
pub fn to_bytes(numbers: &[i32]) -> Vec<u8> {
    numbers.iter().flat_map(|n| n.to_ne_bytes()).collect()
}

pub fn from_bytes(bytes: &[u8]) -> Vec<i32> {
    let number = |b: &[u8]| i32::from_ne_bytes([b[0], b[1], b[2], b[3]]);
    bytes.chunks_exact(4).map(number).collect()
}

/// The program's figures, and what stood on its standard output.
pub struct Answer {
    pub figures: Vec<f64>,
    pub bytes: Vec<u8>,
}

/// Runs the program with as many rounds as so many samples get, and the numbers as
/// further arguments.
pub fn run(program: &OsStr, samples: usize, numbers: &[u32], bytes: Vec<u8>) -> Answer {
    let name = program.to_string_lossy();
    let mut child = Command::new(program)
        .arg(timing::rounds(samples).to_string())
        .args(numbers.iter().map(|number| number.to_string()))
        .stdin(Stdio::piped())
        .stdout(Stdio::piped())
        .stderr(Stdio::piped())
        .spawn()
        .unwrap_or_else(|error| panic!("{name} does not start: {error}"));
    let mut input = child.stdin.take().expect("piped");
    // Written beside the waiting, since either pipe may be full first.
    let writer = thread::spawn(move || input.write_all(&bytes));
    let mut out = Vec::new();
    let mut output = child.stdout.take().expect("piped");
    output.read_to_end(&mut out).expect("an answer");
    let taken = writer.join().expect("no panic");
    let ended = child.wait_with_output().expect("an end");
    let text = String::from_utf8_lossy(&ended.stderr);
    assert!(ended.status.success(), "{name}: {}, {text}", ended.status);
    taken.expect("samples taken");
    let figure = |word: &str| word.parse().expect("a figure");
    Answer {
        figures: text.split_whitespace().map(figure).collect(),
        bytes: out,
    }
}
