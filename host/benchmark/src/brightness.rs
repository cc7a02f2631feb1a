//! The brightness of a region, beside a plain loop over the same buffers and beside a
//! copy of the picture.

use std::hint::black_box;

use benchmark::size::{regions, Size};
use benchmark::timing::best;
use benchmark::{picture, region_of};

/// Number and sum of the region's samples, without any test.
fn add_plainly(samples: &[u16], region: &[u8]) -> [u64; 2] {
    let (mut number, mut sum) = (0, 0);
    for (&sample, &byte) in samples.iter().zip(region) {
        number += u64::from(byte);
        sum += u64::from(byte) * u64::from(sample);
    }
    [number, sum]
}

/// That the call's answer is the reference's, and its number and sum the loop's.
fn compare(size: Size, samples: &[u16], region: &[u8], answer: (u64, [u64; 4]), plain: [u64; 2]) {
    let mut results = [1; 4];
    let number = reference::brightness(size.w, size.h, samples, region, &mut results);
    assert!(
        answer == (number, results),
        "brightness: library and reference differ"
    );
    assert!(results[..2] == plain, "brightness: not the loop's");
}

/// The best times of the call, of the loop and of the copy.
fn times(size: Size, samples: &[u16], region: &[u8]) -> [f64; 3] {
    let (mut number, mut results, mut plain) = (0, [1; 4], [1; 2]);
    let mut copy = vec![0; size.samples()];
    let times = best([
        &mut || number = bindings::brightness(size.w, size.h, samples, region, &mut results),
        &mut || plain = add_plainly(black_box(samples), black_box(region)),
        &mut || {
            copy.copy_from_slice(samples);
            black_box(&copy);
        },
    ]);
    compare(size, samples, region, (number, results), plain);
    times
}

pub fn print(sizes: &[Size]) {
    println!("## Brightness\n");
    println!(
        "One call of dhiirqobaal_brightness, with every test that it makes. Region: no sample, where the call is \
         refused with 19, the last of its refusals; one rectangle over about a tenth of the picture; all of it. Loop: \
         a plain Rust loop over the same two buffers, `iter().zip()`, that adds number and sum in 64 bits and tests \
         nothing. Copy: the picture copied into another buffer. All answers were the reference's, and number and sum \
         the loop's.\n"
    );
    print!("| region | size | brightness | loop | copy | ns a sample ");
    println!("| brightness : loop | brightness : copy |");
    println!("|:--|{}", "---:|".repeat(7));
    for &size in sizes {
        let samples = picture(size.w, size.h);
        for (share, numbers) in regions(size) {
            let [call, plain, copy] = times(size, &samples, &region_of(size, &numbers));
            print!("| {share} | {size} | {call:.3} | {plain:.3} | {copy:.3} ");
            print!("| {:.3} ", call * 1e6 / size.samples() as f64);
            println!("| {:.2} | {:.2} |", call / plain, call / copy);
        }
    }
    println!();
}
