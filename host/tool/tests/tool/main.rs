//! Runs the program on good files and bad ones. One module holds one promise: the exit status and the words are held to
//! the help text, the files to what they should be byte by byte.

mod bitmaps;
mod brightness;
mod broken_call;
mod codec;
mod conventions;
mod honest_words;
mod levels;
mod messages;
mod nothing_lost;
mod pictures;
mod statuses;

use std::fs;
use std::io::Write;
use std::path::PathBuf;
use std::process::{Command, Stdio};
use tempfile::TempDir;

/// A folder of its own for each test, which goes with it.
struct Folder(TempDir);

/// How a call of the program ended.
struct Answer {
    status: i32,
    out: Vec<u8>,
    err: String,
}

impl Answer {
    /// All that it said, standard output first.
    fn said(&self) -> String {
        String::from_utf8_lossy(&self.out).into_owned() + &self.err
    }
}

impl Folder {
    fn new() -> Folder {
        Folder(tempfile::tempdir_in(env!("CARGO_TARGET_TMPDIR")).unwrap())
    }

    fn path(&self, name: &str) -> PathBuf {
        self.0.path().join(name)
    }

    fn put(&self, name: &str, bytes: impl AsRef<[u8]>) {
        fs::write(self.path(name), bytes).unwrap();
    }

    fn get(&self, name: &str) -> Vec<u8> {
        fs::read(self.path(name)).unwrap()
    }

    /// The names of all files in it, sorted.
    fn names(&self) -> Vec<String> {
        let entries = fs::read_dir(self.0.path()).unwrap();
        let mut names: Vec<String> = entries.map(|e| e.unwrap().file_name().into_string().unwrap()).collect();
        names.sort();
        names
    }

    /// A command that runs in it.
    fn command(&self, program: &str) -> Command {
        let mut command = Command::new(program);
        command.current_dir(self.0.path());
        command
    }

    /// The program, with the words of a command line.
    fn program(&self, line: &str) -> Command {
        let mut command = self.command(env!("CARGO_BIN_EXE_dhiirqobaal"));
        command.args(line.split_whitespace());
        command
    }

    fn run(&self, line: &str) -> Answer {
        self.fed(line, b"")
    }

    /// Runs a command line with some bytes as standard input. Whatever happens, the program may not panic or be
    /// killed, and says no number of the system's.
    fn fed(&self, line: &str, input: &[u8]) -> Answer {
        finish(self.program(line), input)
    }

    /// Runs a command line and holds it to its status and to what it says.
    fn ends(&self, line: &str, status: i32, text: &str) {
        let answer = self.run(line);
        assert_eq!(answer.status, status, "{line}: {}", answer.said());
        assert!(answer.said().contains(text), "{line}: {}", answer.said());
    }
}

fn finish(mut command: Command, input: &[u8]) -> Answer {
    command.stdin(Stdio::piped()).stdout(Stdio::piped()).stderr(Stdio::piped());
    let mut child = command.spawn().unwrap();
    let mut pipe = child.stdin.take().unwrap();
    // A program that does not read its input closes the pipe.
    let _ = pipe.write_all(input);
    drop(pipe);
    let output = child.wait_with_output().unwrap();
    let err = String::from_utf8_lossy(&output.stderr).into_owned();
    assert!(!err.contains("panicked") && !err.contains("os error"), "{command:?}: {err}");
    let status = output.status.code().unwrap_or_else(|| panic!("{command:?}: {} {err}", output.status));
    assert!((0..=4).contains(&status), "{command:?}: {status} {err}");
    Answer { status, out: output.stdout, err }
}

/// Bytes that look like chance and are the same in every run.
fn noise(seed: u64, count: usize) -> Vec<u8> {
    let mut state = seed;
    let mut next = || {
        state = state.wrapping_mul(6364136223846793005).wrapping_add(1442695040888963407);
        (state >> 56) as u8
    };
    (0..count).map(|_| next()).collect()
}

/// A picture of noise, as P5.
fn noise_picture(width: usize, height: usize) -> Vec<u8> {
    let mut file = format!("P5\n{width} {height}\n255\n").into_bytes();
    file.extend(noise(7, width * height));
    file
}

/// The stream with its own length in the length field.
fn mended(mut stream: Vec<u8>) -> Vec<u8> {
    let length = stream.len() as u32 - 4;
    stream[..4].copy_from_slice(&length.to_be_bytes());
    stream
}

/// The stream that docs/FORMAT.md works out by hand, of the picture 10 7 / 4 4 with the rectangle 0,0,1,1.
const WORKED: [u8; 24] = [0, 0, 0, 0x14, 1, 0, 1, 8, 0, 2, 0, 2, 1, 3, 0, 0, 0, 0, 0, 1, 0, 1, 0x92, 0x49];

/// The same picture without a rectangle: the region mark is 14, the length 16.
const UNMARKED: [u8; 16] = [0, 0, 0, 12, 1, 0, 1, 8, 0, 2, 0, 2, 0, 3, 0x92, 0x49];

/// What a stream's `info --json` says.
fn told(here: &Folder, name: &str) -> serde_json::Value {
    serde_json::from_slice(&here.run(&format!("info --json {name}")).out).unwrap()
}

/// A picture of 31 by 17 samples, in.pgm, and its stream, all.stream, with two rectangles; the second one ends in the
/// last row and column, which are unpaired. Gives the region mark and the length.
fn two_rectangles(here: &Folder, options: &str) -> (usize, usize) {
    here.put("in.pgm", noise_picture(31, 17));
    here.ends(&format!("encode in.pgm all.stream --rect 3,2,9,5 --rect 24,10,7,7 {options}"), 0, "");
    let told = told(here, "all.stream");
    (told["region_mark"].as_u64().unwrap() as usize, here.get("all.stream").len())
}
