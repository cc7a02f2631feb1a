//! The writer and the reader beside the base's, in two programs that the script
//! names in BODY_TIMES_BASE and BODY_TIMES_NOW (src/bin/body_times.rs). They are
//! run in turn, so that a busy spell of the machine meets both.

use std::env;
use std::ffi::{OsStr, OsString};
use std::process::Command;

use benchmark::size::{regions, Size};
use benchmark::stream::megabits;

/// Each with the rounds of both programs.
const SIZES: [(Size, usize); 3] = [
    (Size::new(512, 512), 12),
    (Size::new(2048, 2048), 8),
    (Size::new(4096, 4096), 5),
];
/// The size at which the time is limited, and the limit of now : base.
const LIMITED: Size = Size::new(2048, 2048);
const LIMIT: f64 = 0.45;

/// What both libraries must have alike.
#[derive(Clone, PartialEq, Debug)]
struct Stream {
    hash: String,
    length: usize,
    bits: usize,
}

/// Best times of writing and reading.
type Times = [f64; 2];

fn run(program: &OsStr, size: Size, numbers: &[u32]) -> (Stream, Times) {
    let name = program.to_string_lossy();
    let output = Command::new(program)
        .args([size.w, size.h].map(|side| side.to_string()))
        .args(numbers.iter().map(|number| number.to_string()))
        .output()
        .unwrap_or_else(|error| panic!("{name} does not start: {error}"));
    let told = String::from_utf8_lossy(&output.stderr);
    assert!(output.status.success(), "{name}: {told}");
    let text = String::from_utf8_lossy(&output.stdout);
    let words: Vec<&str> = text.split_whitespace().collect();
    let [hash, length, bits, write, read] = words[..] else {
        panic!("{name} answered '{text}'");
    };
    let count = |word: &str| word.parse().expect("a count");
    let stream = Stream {
        hash: hash.to_string(),
        length: count(length),
        bits: count(bits),
    };
    let time = |word: &str| word.parse().expect("a time");
    (stream, [write, read].map(time))
}

/// The best times of the base and now; their streams must be the same.
fn best(
    programs: &[OsString; 2],
    rounds: usize,
    size: Size,
    numbers: &[u32],
) -> (Stream, [Times; 2]) {
    let mut best = [[f64::INFINITY; 2]; 2];
    let mut stream = None;
    for _ in 0..rounds {
        for (program, best) in programs.iter().zip(&mut best) {
            let (answer, times) = run(program, size, numbers);
            let first = stream.get_or_insert_with(|| answer.clone());
            assert!(*first == answer, "the base and now write other streams");
            *best = [0, 1].map(|i| best[i].min(times[i]));
        }
    }
    (stream.expect("a round"), best)
}

fn cells(base: f64, now: f64, bits: usize) -> String {
    let rate = megabits(bits, now);
    format!("{base:.3} | {now:.3} | {:.2} | {rate:.0}", now / base)
}

fn print_row(share: &str, size: Size, bits: usize, [base, now]: [Times; 2]) {
    let [write, read] = [0, 1].map(|i| cells(base[i], now[i], bits));
    println!("| {share} | {size} | {bits} | {write} | {read} |");
}

/// Whether the largest ratio of writing, and that of reading, is within the limit.
fn print_verdict(largest: [f64; 2]) {
    println!(
        "\nBeside the library at commit 7a85ab7, whose writer and reader take one coefficient at a time, \
         now : base of at most {LIMIT} at {LIMITED} is asked. The largest there, held to that whatever the base is:\n"
    );
    for (call, ratio) in ["write", "read"].into_iter().zip(largest) {
        let verdict = if ratio <= LIMIT { "kept" } else { "not kept" };
        println!("- {call}: {ratio:.3}, {verdict}");
    }
    println!();
}

fn print_table(programs: &[OsString; 2]) {
    print!("| region | size | bits ");
    print!("| write, base | now | now : base | Mbit/s ");
    println!("| read, base | now | now : base | Mbit/s |");
    println!("|:--|{}", "---:|".repeat(10));
    let mut largest: [f64; 2] = [0.0; 2];
    for (size, rounds) in SIZES {
        for (share, numbers) in regions(size) {
            let (stream, times) = best(programs, rounds, size, &numbers);
            print_row(share, size, stream.bits, times);
            if size == LIMITED {
                let [base, now] = times;
                largest = [0, 1].map(|i| largest[i].max(now[i] / base[i]));
            }
        }
    }
    print_verdict(largest);
}

fn print_introduction() {
    let base = env::var("BASE").unwrap_or_else(|_| "another library".to_string());
    println!(
        "Whole calls of dhiirqobaal_write and dhiirqobaal_read, kernel 2, five levels, beside those of \
         the base, {base}. Two programs, which differ in the linked library alone, were run in turn, and \
         the best of several runs is taken. Each read back what it had written, and both wrote the same \
         streams, by their lengths and a hash. Mbit/s: millions of bits of the body a second, now.\n"
    );
}

pub fn print() {
    println!("## Base\n");
    let programs = ["BODY_TIMES_BASE", "BODY_TIMES_NOW"].map(env::var_os);
    let [Some(base), Some(now)] = programs else {
        println!("Not run: BASE_LIBRARY names no library.\n");
        return;
    };
    print_introduction();
    print_table(&[base, now]);
}
