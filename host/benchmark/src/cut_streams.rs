//! Reading a cut stream: what it costs beside the bits that arrived.

use std::cell::RefCell;

use benchmark::size::{regions, Size};
use benchmark::stream::{body_bits, Buffers, Reader, Setting};
use benchmark::timing::Rounds;

/// A stream's reader, its lengths and the bits of its whole body.
struct Stream {
    reader: RefCell<Reader>,
    before_body: usize,
    length: usize,
    bits: usize,
}

impl Stream {
    fn new(setting: Setting, numbers: &[u32], samples: &[u16]) -> Stream {
        let (buffers, written) = Buffers::written(setting, numbers, samples);
        let bits = body_bits(&buffers.plane);
        let mut reader = Reader::new(buffers.stream, setting.size.samples());
        Stream {
            before_body: reader.before_body(),
            reader: RefCell::new(reader),
            length: written.length,
            bits,
        }
    }

    /// The bits of the body that arrive with so many bytes.
    fn arrived(&self, length: usize) -> usize {
        self.bits.min(8 * (length - self.before_body))
    }

    fn read(&self, length: usize) {
        self.reader.borrow_mut().read(length);
    }
}

/// The best times of reading at each of the lengths, and of the same work without
/// a body by other calls.
fn times(
    stream: &Stream,
    setting: Setting,
    numbers: &[u32],
    lengths: [usize; 4],
) -> ([f64; 4], f64) {
    let [a, b, c, d] = lengths;
    let mut region = vec![0; setting.size.samples()];
    let [a, b, c, d, prepared] = Rounds::DIFFERENCE.best([
        &mut || stream.read(a),
        &mut || stream.read(b),
        &mut || stream.read(c),
        &mut || stream.read(d),
        &mut || {
            let mut reader = stream.reader.borrow_mut();
            reader.prepare(setting, numbers, &mut region);
        },
    ]);
    for length in lengths {
        stream.reader.borrow_mut().compare(length);
    }
    ([a, b, c, d], prepared)
}

/// Gives the largest time of a bit that arrived in a cut stream, in times of one in the
/// whole.
fn print_region(setting: Setting, share: &str, numbers: &[u32], samples: &[u16]) -> f64 {
    let stream = Stream::new(setting, numbers, samples);
    let part = |n: usize| (stream.length / n).max(stream.before_body);
    let lengths = [stream.length, part(10), part(100), stream.before_body];
    let (times, prepared) = times(&stream, setting, numbers, lengths);
    let [whole, .., header] = times;
    let names = ["whole", "a tenth", "a hundredth", "before its body"];
    let mut largest: f64 = 0.0;
    for (i, name) in names.into_iter().enumerate() {
        let (length, bits) = (lengths[i], stream.arrived(lengths[i]));
        print!("| {share} | {name} | {length} | {bits} | {:.3} ", times[i]);
        if bits == 0 {
            println!("| | | | |");
            continue;
        }
        let body = times[i] - header;
        let part = bits as f64 / stream.bits as f64;
        let cost = body / (whole - header);
        print!("| {body:.3} | {:.2} ", body * 1e6 / bits as f64);
        println!("| {:.1} % | {:.1} % |", 100.0 * part, 100.0 * cost);
        largest = largest.max(cost / part);
    }
    println!("| {share} | region, mask, zeros | | | {prepared:.3} | | | | |");
    largest
}

pub fn print(size: Size, samples: &[u16]) {
    println!("## Cut streams\n");
    println!(
        "A stream of a {size} picture, kernel 2, five levels, read whole and cut: by dhiirqobaal_read on \
         its first bytes, with the length field of a stream that was cut there. A stream cut before its \
         body has no bit: its call is header, mask, count of marks and the zeroing of the plane. The \
         column 'body' is the call without that one, then divided by the bits that arrived; the last \
         two columns are the bits that arrived and this time, in parts of the whole stream's. For \
         comparison, the same work by other calls: dhiirqobaal_region, dhiirqobaal_mask and a plane filled \
         with 0. All planes read were the reference's.\n"
    );
    print!("| region | cut to | bytes | bits that arrived | call | body ");
    println!("| ns a bit | bits : all | body's time : all |");
    println!("|:--|:--|{}", "---:|".repeat(7));
    let [none, tenth, _] = regions(size);
    let [a, b] = [none, tenth]
        .map(|(share, numbers)| print_region(Setting::longest(size), share, &numbers, samples));
    let largest = a.max(b);
    println!(
        "\nA bit that arrived takes at most {largest:.2} times what a bit of the whole stream takes, \
         wherever the stream is cut here.\n"
    );
}
