//! A whole shot beside OpenJPEG's lossless encoder and decoder: times, lengths and
//! seconds on a cable.

use std::cell::RefCell;

use benchmark::size::{regions, Size};
use benchmark::stream::{write, Buffers, Setting};
use benchmark::timing::best;
use benchmark::{accepted, picture, DEPTH};

use crate::outside_codec::{self, Outside};
use crate::panel;

const KERNEL: usize = 3;
const LEVELS: usize = 5;
/// As the tool counts by default: bits a second, and bits a byte.
const CABLE: f64 = 115_200.0;
const BITS_A_BYTE: f64 = 8.0;

fn seconds(bytes: usize) -> f64 {
    bytes as f64 * BITS_A_BYTE / CABLE
}

/// One shot: the buffers from the samples to what is shown. Those that are sent and
/// those that are read are apart, as on two machines.
struct Shot<'a> {
    setting: Setting,
    numbers: &'a [u32],
    samples: &'a [u16],
    sent: Buffers,
    read: Buffers,
    undone: Vec<i32>,
    shown: Vec<u16>,
    mark: usize,
}

impl Shot<'_> {
    fn new<'a>(setting: Setting, numbers: &'a [u32], samples: &'a [u16]) -> Shot<'a> {
        let (sent, written) = Buffers::written(setting, numbers, samples);
        Shot {
            setting,
            numbers,
            samples,
            sent,
            read: Buffers::new(samples.len(), 0),
            undone: vec![0; samples.len()],
            shown: vec![0; samples.len()],
            mark: written.mark,
        }
    }

    fn transform_and_write(&mut self) {
        let sent = &mut self.sent;
        self.setting.transform(self.samples, &mut sent.plane);
        accepted(write(bindings::write, self.setting, self.numbers, sent).number);
    }

    fn read_undo_and_show(&mut self) {
        let Size { w, h } = self.setting.size;
        let (plane, mask) = (&mut self.read.plane, &mut self.read.mask);
        let mut results = [0; 139];
        accepted(bindings::read(&self.sent.stream, plane, mask, &mut results));
        let undone = &mut self.undone;
        accepted(bindings::undo(KERNEL, LEVELS, w, h, plane, undone));
        accepted(bindings::show(DEPTH, w, h, undone, &mut self.shown));
    }
}

/// Best times of the shot there and back, its stream's length and region mark.
struct Ours {
    there: f64,
    back: f64,
    length: usize,
    mark: usize,
}

/// The picture that is shown must be the one that was captured.
fn ours(setting: Setting, numbers: &[u32], samples: &[u16]) -> Ours {
    let shot = RefCell::new(Shot::new(setting, numbers, samples));
    let [there, back] = best([&mut || shot.borrow_mut().transform_and_write(), &mut || {
        shot.borrow_mut().read_undo_and_show()
    }]);
    let shot = shot.into_inner();
    assert!(shot.shown == samples, "another picture is shown");
    Ours {
        there,
        back,
        length: shot.sent.stream.len(),
        mark: shot.mark,
    }
}

/// One line of the tables.
struct Line {
    name: String,
    share: &'static str,
    ours: Ours,
    outside: Option<Outside>,
}

impl Line {
    fn is_tenth(&self) -> bool {
        self.share == "a tenth"
    }

    fn lengths(&self) -> (usize, Option<usize>) {
        (self.ours.length, self.outside.map(|o| o.length))
    }

    /// Where the region is exact.
    fn marks(&self) -> (usize, Option<usize>) {
        (self.ours.mark, self.outside.and_then(|o| o.exact))
    }

    /// Seconds from the samples to the picture shown, on both sides and on the cable.
    fn totals(&self) -> Option<(f64, f64)> {
        let outside = self.outside?;
        let ours = (self.ours.there + self.ours.back) / 1e3 + seconds(self.ours.length);
        let other = (outside.encode + outside.decode) / 1e3 + seconds(outside.length);
        Some((ours, other))
    }
}

/// The lines of one picture. OpenJPEG has no region for a tenth: it stands there
/// without one. It is run before ours and after, so that a busy spell of the machine
/// spoils neither.
fn lines(name: &str, size: Size, samples: &[u16]) -> [Line; 3] {
    let setting = Setting {
        kernel: KERNEL,
        levels: LEVELS,
        size,
    };
    let outside = |region, numbers: &[u32]| outside_codec::run(setting, region, numbers, samples);
    let [_, (_, tenth), _] = regions(size);
    let before = [outside(false, &tenth), outside(true, &[])];
    let ours = regions(size).map(|(share, numbers)| (share, ours(setting, &numbers, samples)));
    let after = [outside(false, &[]), outside(true, &[])];
    let best = [0, 1].map(|i| Some(before[i]?.better(after[i]?)));
    ours.map(|(share, ours)| Line {
        name: format!("{name} | {size}"),
        share,
        ours,
        outside: best[usize::from(share == "all")],
    })
}

/// Ours, OpenJPEG's and the ratio.
fn beside(ours: f64, outside: Option<f64>) -> String {
    match outside {
        Some(time) => format!("{ours:.3} | {time:.3} | {:.2}", ours / time),
        None => format!("{ours:.3} | not installed | "),
    }
}

fn print_times(lines: &[Line]) {
    print!("| picture | size | region | transform, write | OpenJPEG encodes | ours : OpenJPEG ");
    println!("| read, undo, show | OpenJPEG decodes | ours : OpenJPEG |");
    println!("|:--|---:|:--|{}", "---:|".repeat(6));
    for line in lines {
        let there = beside(line.ours.there, line.outside.map(|o| o.encode));
        let back = beside(line.ours.back, line.outside.map(|o| o.decode));
        println!("| {} | {} | {there} | {back} |", line.name, line.share);
    }
    println!();
}

/// A table of lengths, with the seconds that they take on the cable.
fn print_lengths<'a>(
    title: &str,
    lines: impl Iterator<Item = &'a Line>,
    lengths: fn(&Line) -> (usize, Option<usize>),
) {
    print!("| picture | size | region | {title}, bytes | OpenJPEG, bytes | ours : OpenJPEG ");
    println!("| seconds | OpenJPEG, seconds |");
    println!("|:--|---:|:--|{}", "---:|".repeat(5));
    for line in lines {
        let (ours, other) = lengths(line);
        print!("| {} | {} | {ours} ", line.name, line.share);
        match other {
            Some(other) => {
                print!("| {other} | {:.2} ", ours as f64 / other as f64);
                println!("| {:.1} | {:.1} |", seconds(ours), seconds(other));
            }
            None => println!("| not installed | | {:.1} | |", seconds(ours)),
        }
    }
    println!();
}

/// The smallest and the largest of some ratios, ours over OpenJPEG's.
fn span(ratios: &[f64]) -> String {
    let least = ratios.iter().copied().fold(f64::INFINITY, f64::min);
    let most = ratios.iter().copied().fold(0.0, f64::max);
    format!("{least:.2} to {most:.2}")
}

/// How many of the ratios are above 1.
fn above(ratios: &[f64]) -> String {
    let count = ratios.iter().filter(|&&ratio| ratio > 1.0).count();
    format!("{count} of {} lines", ratios.len())
}

fn ratio((ours, other): (usize, Option<usize>)) -> Option<f64> {
    Some(ours as f64 / other? as f64)
}

/// What the lengths mean, in figures of this run.
fn print_meaning(name: &str, lines: &[Line]) {
    let tenths = lines.iter().filter(|line| line.is_tenth());
    let lengths: Vec<f64> = lines.iter().filter_map(|l| ratio(l.lengths())).collect();
    let totals = lines.iter().filter_map(Line::totals);
    let totals: Vec<f64> = totals.map(|(ours, other)| ours / other).collect();
    let marks: Vec<f64> = tenths.filter_map(|line| ratio(line.marks())).collect();
    println!(
        "- {name}: our stream is {} times as long as OpenJPEG's codestream, and takes as many times as \
         long on the cable. From the samples to the picture shown, both sides and the cable, ours takes {} \
         times as long as OpenJPEG's: longer in {}. With a tenth as region, its samples are exact in ours after \
         {} times the bytes that they take in OpenJPEG's: more in {}.",
        span(&lengths),
        span(&totals),
        above(&totals),
        span(&marks),
        above(&marks)
    );
}

fn print_introduction() {
    println!(
        "What a user would pick instead, without the promise: OpenJPEG's lossless encoder and decoder \
         (tools/outside_codec), by its public calls, one thread: the 5/3 and five levels, one tile, one \
         quality layer, code blocks of 64 by 64. Ours: kernel 3, the same 5/3, and five levels; \
         dhiirqobaal_transform and dhiirqobaal_write; dhiirqobaal_read, dhiirqobaal_undo and dhiirqobaal_show, \
         with every test that they make. OpenJPEG allocates memory within its calls, and that is in its \
         times; our calls allocate none. Both gave back the picture.\n\n\
         Pictures: the noisy slope of the other sections, and the demonstration's panel, its upper left \
         part where the size is smaller and repeated where it is larger.\n\n\
         OpenJPEG's region of interest is a whole component: its encoder takes a component's number and \
         a shift, no rectangle. So it stands without a region beside our none and a tenth, and with its \
         one component as region beside our all: all coefficients are shifted alike, the coded bits stay \
         as they are, and a marker that tells the shift comes in.\n"
    );
}

fn print_lines(pictures: &[(&str, Vec<Line>)]) {
    for (_, lines) in pictures {
        print_times(lines);
    }
    println!(
        "Lengths, and seconds on a cable of 115,200 bits a second, 8 bits a byte. OpenJPEG has an entropy \
         coder; we send the bits as they are.\n"
    );
    for (_, lines) in pictures {
        print_lengths("ours", lines.iter(), Line::lengths);
    }
    println!(
        "Where the region is exact when the stream is cut. Ours: the region mark, which the writer tells. \
         OpenJPEG: its decoder refuses a cut codestream by default; in the mode that takes one, a rectangle \
         is exact once the last of its code blocks is there, and nothing tells where that is. It was \
         found by cutting, to a thousandth of the codestream. Tiles, or the rectangle sent first as a \
         picture of its own, would be other ways; they are not timed here.\n"
    );
    for (_, lines) in pictures {
        let tenths = lines.iter().filter(|line| line.is_tenth());
        print_lengths("our mark", tenths, Line::marks);
    }
    if pictures.iter().any(|(_, lines)| lines[0].outside.is_none()) {
        println!("OpenJPEG was not timed: the package libopenjp2-7-dev is not installed.\n");
        return;
    }
    for (name, lines) in pictures {
        print_meaning(name, lines);
    }
    println!();
}

pub fn print(sizes: &[Size]) {
    println!("## A whole shot beside OpenJPEG\n");
    print_introduction();
    let slope = |size: &Size| lines("slope", *size, &picture(size.w, size.h));
    let mut pictures = vec![("slope", sizes.iter().flat_map(slope).collect())];
    if let Some(drawn) = panel::read() {
        let panel = |size: &Size| lines("panel", *size, &panel::samples(&drawn, *size));
        pictures.push(("panel", sizes.iter().flat_map(panel).collect()));
    }
    print_lines(&pictures);
}
