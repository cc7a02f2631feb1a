//! Two masks joined, beside a copy of one and beside the mask of both regions made
//! anew.

use std::cell::RefCell;
use std::hint::black_box;

use benchmark::size::{regions, Size};
use benchmark::stream::Setting;
use benchmark::timing::best;
use benchmark::{accepted, region_of};

use crate::transforms::eight;

/// The smallest byte that is refused.
const TOO_LARGE: u8 = 2;

fn make_mask(setting: Setting, region: &[u8], mask: &mut [u8]) {
    let Setting {
        kernel,
        levels,
        size: Size { w, h },
    } = setting;
    accepted(bindings::mask(kernel, levels, w, h, region, mask));
}

/// Two masks, and what is made from them. Every call works on these, since times
/// depend on where a buffer lies.
struct Buffers {
    setting: Setting,
    masks: [Vec<u8>; 2],
    /// The last byte of the second, which is altered to have it refused.
    last: u8,
    joined: Vec<u8>,
    copy: Vec<u8>,
    /// Both regions joined, and the mask of that.
    region: Vec<u8>,
    mask: Vec<u8>,
}

impl Buffers {
    /// The masks of eight rectangles and of one in the middle.
    fn new(setting: Setting) -> Buffers {
        let size = setting.size;
        let empty = || vec![0; size.samples()];
        let [_, (_, middle), _] = regions(size);
        let lists = [eight(size), middle];
        let region = region_of(size, &lists.concat());
        let masks = lists.map(|numbers| {
            let mut mask = empty();
            make_mask(setting, &region_of(size, &numbers), &mut mask);
            mask
        });
        Buffers {
            setting,
            last: masks[1][size.samples() - 1],
            masks,
            joined: empty(),
            copy: empty(),
            region,
            mask: empty(),
        }
    }

    fn join(&mut self, last: u8) -> u64 {
        let Size { w, h } = self.setting.size;
        let [first, second] = &mut self.masks;
        second[w * h - 1] = last;
        bindings::join(w, h, first, second, &mut self.joined)
    }

    fn accept(&mut self) {
        accepted(self.join(self.last));
    }

    fn refuse(&mut self) {
        assert_eq!(self.join(TOO_LARGE), 9, "the last byte is refused");
    }

    fn copy(&mut self) {
        self.copy.copy_from_slice(&self.masks[0]);
        black_box(&self.copy);
    }

    fn make_anew(&mut self) {
        make_mask(self.setting, &self.region, &mut self.mask);
    }

    /// That the joined masks are what the reference gives, and the mask of both
    /// regions.
    fn compare(&mut self) {
        let Size { w, h } = self.setting.size;
        let mut expected = vec![0; w * h];
        let [first, second] = &mut self.masks;
        second[w * h - 1] = self.last;
        accepted(reference::join(w, h, first, second, &mut expected));
        assert!(
            self.joined == expected,
            "join: library and reference differ"
        );
        assert!(self.joined == self.mask, "join: not the mask of both");
    }
}

/// The bytes that the call reads and writes for a place: two for the tests, and
/// three for the joining. A copy has two.
const JOIN_BYTES: f64 = 5.0;
const COPY_BYTES: f64 = 2.0;

/// The best times of the whole call, of its tests alone, of a copy and of the mask
/// made anew.
fn times(setting: Setting) -> [f64; 4] {
    let buffers = RefCell::new(Buffers::new(setting));
    let times = best([
        &mut || buffers.borrow_mut().accept(),
        &mut || buffers.borrow_mut().refuse(),
        &mut || buffers.borrow_mut().copy(),
        &mut || buffers.borrow_mut().make_anew(),
    ]);
    buffers.borrow_mut().compare();
    times
}

pub fn print(sizes: &[Size]) {
    println!("## Join\n");
    println!(
        "Two masks joined by one call of dhiirqobaal_join: that of eight rectangles and that of one in \
         the middle, each over about a tenth of the picture, kernel 2, five levels. Tests: the same call \
         with a 2 for the last byte of the second mask; it is refused with 9 after all tests, a pass over \
         each mask among them, and nothing is written. Joining: the difference of the two. Copy: one \
         mask copied into another buffer. The call reads both masks for the tests and again for the joining, \
         since a refusal must leave the third buffer as it was, and writes that one: five bytes for a place, \
         where a copy reads one and writes one. A byte: the time of such a byte in the call, beside one in \
         the copy. Mask: dhiirqobaal_mask of both regions joined, the walk that is spared where both masks \
         are there. The joined masks were the reference's, and the same as that mask.\n"
    );
    print!("| size | join | tests | joining | copy | mask ");
    println!("| join : copy | a byte | mask : join |");
    println!("|:--|{}", "---:|".repeat(8));
    for &size in sizes {
        let [join, tests, copy, mask] = times(Setting::longest(size));
        print!("| {size} | {join:.3} | {tests:.3} | {:.3} ", join - tests);
        print!("| {copy:.3} | {mask:.3} ");
        let byte = (join / JOIN_BYTES) / (copy / COPY_BYTES);
        println!("| {:.1} | {byte:.2} | {:.1} |", join / copy, mask / join);
    }
    println!();
}
