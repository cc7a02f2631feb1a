//! A region that marks little: what its part of the stream costs beside the same
//! number of bits of a picture that is all region.

use std::cell::RefCell;
use std::hint::black_box;

use benchmark::accepted;
use benchmark::size::{regions, Size};
use benchmark::stream::{body_bits, marked_bits, needed, write, Buffers, Reader, Setting};
use benchmark::timing::{best, Rounds};

/// What the region may cost beside its own bits in a picture that is all region,
/// one scan of the mask apart.
const LIMIT: f64 = 1.5;

/// About a thousandth of the samples each; positions and sides are those of a
/// picture of 4,096 by 4,096, and in the same relation in any other. The mask of the
/// lines marks more coefficients than the library collects.
fn little(size: Size) -> [(&'static str, Vec<u32>); 5] {
    let across = |x: usize| (size.w * x / 4096) as u32;
    let down = |y: usize| (size.h * y / 4096) as u32;
    let rectangle = |x, y, w, h| [across(x), down(y), across(w).max(1), down(h).max(1)];
    let spread = |i: usize, w, h| {
        let (column, row) = (i % 8, i / 8);
        let x = 512 * column + 233 + 13 * row;
        rectangle(x, 1024 * row + 249 + 29 * column, w, h)
    };
    [
        ("none", Vec::new()),
        ("130 by 129", rectangle(1237, 2051, 130, 129).to_vec()),
        ("4 by 4096", rectangle(2741, 0, 4, 4096).to_vec()),
        (
            "32 of 23 by 23",
            (0..32).flat_map(|i| spread(i, 23, 23)).collect(),
        ),
        (
            "32 of 1 by 512",
            (0..32).flat_map(|i| spread(i, 1, 512)).collect(),
        ),
    ]
}

/// Bits, and the time that they took.
#[derive(Clone, Copy)]
struct Cost {
    bits: usize,
    time: f64,
}

impl Cost {
    /// What so many of these bits take.
    fn of(self, bits: usize) -> f64 {
        self.time * bits as f64 / self.bits as f64
    }
}

/// The whole body of a picture that is all region: written, and read.
fn all_region(setting: Setting, samples: &[u16]) -> [Cost; 2] {
    let [.., (_, numbers)] = regions(setting.size);
    let (buffers, written) = Buffers::written(setting, &numbers, samples);
    let bits = body_bits(&buffers.plane);
    let reader = Reader::new(buffers.stream.clone(), setting.size.samples());
    let (buffers, reader) = (RefCell::new(buffers), RefCell::new(reader));
    let before = reader.borrow_mut().before_body();
    let [whole, asked, read, header] = Rounds::DIFFERENCE.best([
        &mut || write_once(setting, &numbers, &buffers),
        &mut || ask_once(setting, &numbers, &buffers),
        &mut || reader.borrow_mut().read(written.length),
        &mut || reader.borrow_mut().read(before),
    ]);
    reader.borrow_mut().compare(written.length);
    [whole - asked, read - header].map(|time| Cost { bits, time })
}

fn write_once(setting: Setting, numbers: &[u32], buffers: &RefCell<Buffers>) {
    let buffers = &mut buffers.borrow_mut();
    accepted(write(bindings::write, setting, numbers, buffers).number);
}

fn ask_once(setting: Setting, numbers: &[u32], buffers: &RefCell<Buffers>) {
    needed(setting, numbers, &mut buffers.borrow_mut());
}

/// Counts the marks in the plainest way.
fn scan(mask: &[u8]) -> usize {
    let mut marks = 0;
    for &mark in mask {
        marks += usize::from(mark);
    }
    marks
}

/// Apart from other work, which would leave less of the mask in the caches.
fn scan_time(mask: &[u8]) -> f64 {
    let [time] = best([&mut || {
        black_box(scan(black_box(mask)));
    }]);
    time
}

/// Reading up to the region mark, and up to the body.
fn print_read(setting: Setting, name: &str, numbers: &[u32], samples: &[u16], all: Cost) {
    let (buffers, written) = Buffers::written(setting, numbers, samples);
    let bits = marked_bits(&buffers.plane, &buffers.mask);
    let reader = Reader::new(buffers.stream, setting.size.samples());
    let reader = RefCell::new(reader);
    let before = reader.borrow_mut().before_body();
    let [cut, header] = Rounds::DIFFERENCE
        .best([&mut || reader.borrow_mut().read(written.mark), &mut || {
            reader.borrow_mut().read(before)
        }]);
    reader.borrow_mut().compare(written.mark);
    let cells = bounded(cut - header, all.of(bits), scan_time(&buffers.mask));
    println!("| {name} | {bits} | {cut:.3} | {header:.3} | {cells} |");
}

/// Makes every coefficient 0 that the region's mask does not mark, so that the
/// unmarked part takes little of a call.
fn only_marked(setting: Setting, numbers: &[u32], samples: &[u16]) -> Buffers {
    let (mut buffers, _) = Buffers::written(setting, numbers, samples);
    for (coefficient, &mark) in buffers.plane.iter_mut().zip(&buffers.mask) {
        *coefficient *= i32::from(mark);
    }
    buffers.stream.fill(0);
    buffers
}

/// Writing, beside writing without a region in the same rounds; gives the region's
/// part. Its bits are among those of either call.
fn print_write(setting: Setting, name: &str, numbers: &[u32], buffers: Buffers, all: Cost) -> f64 {
    let buffers = RefCell::new(buffers);
    let [with, asked, without, asked_without] = Rounds::DIFFERENCE.best([
        &mut || write_once(setting, numbers, &buffers),
        &mut || ask_once(setting, numbers, &buffers),
        &mut || write_once(setting, &[], &buffers),
        &mut || ask_once(setting, &[], &buffers),
    ]);
    compare_written(setting, numbers, &buffers);
    let buffers = buffers.borrow();
    let bits = marked_bits(&buffers.plane, &buffers.mask);
    let (own, scan) = (all.of(bits), scan_time(&buffers.mask));
    let part = (with - asked) - (without - asked_without) + own;
    print!("| {name} | {bits} | {with:.3} | {asked:.3} | {without:.3} | {asked_without:.3} ");
    println!("| {} |", bounded(part, own, scan));
    part
}

/// That writing gives what the reference gives.
fn compare_written(setting: Setting, numbers: &[u32], buffers: &RefCell<Buffers>) {
    buffers.borrow_mut().stream.fill(0);
    write_once(setting, numbers, buffers);
    let written = buffers.borrow();
    let mut expected = Buffers::new(written.plane.len(), written.stream.len());
    expected.plane.copy_from_slice(&written.plane);
    accepted(write(reference::write, setting, numbers, &mut expected).number);
    assert!(*written == expected, "write: library and reference differ");
}

/// The region's part, its own bits, a scan, the bound, and whether it is kept.
fn bounded(part: f64, own: f64, scan: f64) -> String {
    let bound = LIMIT * own + scan;
    let within = if part <= bound { "yes" } else { "no" };
    format!("{part:.3} | {own:.3} | {scan:.3} | {bound:.3} | {within}")
}

fn print_reading(setting: Setting, samples: &[u16], all: Cost) {
    println!(
        "Reading. Its part: a stream cut to its region mark, without the same stream cut before its body, so \
         that the drawing of the mask, the count of marks and the zeroing of the plane are aside. Own \
         bits: what as many bits take in a picture that is all region, whose whole stream takes \
         {:.3} ms for {} bits when the same is taken off. Scan: one pass over the mask's bytes that counts \
         the marks, a plain loop of the benchmark in Rust, built for release. Bound: {LIMIT} times own bits, \
         and one scan. Without a region both calls are the same: this line shows the noise of a \
         difference. All planes read were the reference's.\n",
        all.time, all.bits
    );
    print!("| region | its bits | cut to its mark | cut before its body | its part ");
    println!("| own bits | scan | bound | within |");
    println!("|:--|{}", "---:|".repeat(8));
    for (name, numbers) in little(setting.size) {
        print_read(setting, name, &numbers, samples, all);
    }
    println!();
}

/// The first figure is noise, since the same call stood on both sides.
fn print_noise(figures: &[(&str, f64)]) {
    let [(_, noise), figures @ ..] = figures else {
        return;
    };
    let noise = noise.abs();
    print!("Without a region its part is noise, in this run {noise:.3} ms.");
    for (name, part) in figures {
        if *part <= noise {
            print!(" That of {name}, {part:.3} ms, is no larger than the noise.");
        }
    }
    println!("\n");
}

fn print_writing(setting: Setting, samples: &[u16], all: Cost) {
    println!(
        "Writing. The writer always writes the unmarked part too: here every unmarked coefficient is 0, so that \
         this part takes little, and the call stands beside one without a region on the same plane, in the same \
         rounds. Empty: the same calls with an empty buffer, which draw the mask, make the tests and count the \
         length. Its part: what the call takes more than the one without a region, the empty calls taken off, and \
         its own bits, which are among those of either. Own bits, of {:.3} ms for all of a picture that is all \
         region, scan and bound as above. All streams were the reference's.\n",
        all.time
    );
    print!("| region | its bits | write | empty | without region | empty | its part ");
    println!("| own bits | scan | bound | within |");
    println!("|:--|{}", "---:|".repeat(10));
    let regions = little(setting.size);
    let figures = regions.clone().map(|(name, numbers)| {
        // Without a region nothing is marked: the first region's plane shows the noise.
        let marking = if numbers.is_empty() {
            &regions[1].1
        } else {
            &numbers
        };
        let buffers = only_marked(setting, marking, samples);
        (name, print_write(setting, name, &numbers, buffers, all))
    });
    println!();
    print_noise(&figures);
}

pub fn print(size: Size, samples: &[u16]) {
    let setting = Setting::longest(size);
    println!("## Little region\n");
    println!(
        "Regions of about a thousandth of a {size} picture, kernel 2, five levels: a rectangle, a thin \
         one over the whole height, 32 squares spread over the picture, and 32 lines spread likewise. \
         The mask marks more coefficients than the region has samples, since the lows around it are needed \
         too; that of the lines marks 188,000, more than the 65,536 that are collected. What a call \
         does before the body, such as the drawing of the mask, is set aside here: the column 'cut before \
         its body' has it, and the section Cut streams beside the same work by other calls.\n"
    );
    let [write, read] = all_region(setting, samples);
    print_reading(setting, samples, read);
    print_writing(setting, samples, write);
}
