//! Write and read beside the reference and a copy.

use benchmark::accepted;
use benchmark::size::Size;
use benchmark::stream::{body_bits, write, Buffers, Setting};
use benchmark::timing::best;

use crate::table::{row, More, Row};

fn write_times(setting: Setting, numbers: &[u32], buffers: &mut Buffers) -> [f64; 3] {
    let from = buffers.clone();
    let mut copied = buffers.clone();
    let mut expected = buffers.clone();
    let times = best([
        &mut || copied.copy_from(&from),
        &mut || accepted(write(bindings::write, setting, numbers, buffers).number),
        &mut || accepted(write(reference::write, setting, numbers, &mut expected).number),
    ]);
    assert!(*buffers == expected, "write: library and reference differ");
    times
}

fn read_times(size: Size, written: &Buffers) -> [f64; 3] {
    let stream = &written.stream;
    let mut copied = Buffers::new(size.samples(), stream.len());
    let mut read = Buffers::new(size.samples(), 0);
    let mut expected = Buffers::new(size.samples(), 0);
    let mut results = [0; 139];
    let mut expected_results = [0; 139];
    let times = best([
        &mut || copied.copy_from(written),
        &mut || {
            let (plane, mask) = (&mut read.plane, &mut read.mask);
            accepted(bindings::read(stream, plane, mask, &mut results));
        },
        &mut || {
            let (plane, mask) = (&mut expected.plane, &mut expected.mask);
            accepted(reference::read(stream, plane, mask, &mut expected_results));
        },
    ]);
    assert!(read == expected && results == expected_results);
    assert!(read.plane == written.plane, "read: another plane");
    times
}

/// Kernel 2, five levels.
pub fn stream_rows(size: Size, share: &str, numbers: &[u32], samples: &[u16]) -> [Row; 2] {
    let setting = Setting::longest(size);
    let mut buffers = Buffers::unwritten(setting, numbers, samples);
    let bits = More::Bits(body_bits(&buffers.plane));
    let times = write_times(setting, numbers, &mut buffers);
    let times_back = read_times(size, &buffers);
    [
        row(share.to_string(), size, times, bits),
        row(share.to_string(), size, times_back, bits),
    ]
}
