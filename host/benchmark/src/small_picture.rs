//! The picture at level r of one large plane: its time without that of the tests,
//! which go over the whole plane at every r, and OpenJPEG's for undoing as far.

use std::cell::RefCell;
use std::hint::black_box;

use benchmark::size::Size;
use benchmark::timing::{best, parted, Parted};
use benchmark::{accepted, DEPTH};

use crate::{outside_53, KERNELS};

const LEVELS: usize = 5;
/// The level of which about a 64th of level 0's work is asked.
const ASKED: usize = 3;
/// The smallest magnitude that is refused.
const TOO_LARGE: i32 = 1 << 22;

/// A picture's plane, and buffers as long as the picture. Every call works on
/// these, since times depend on where a buffer lies.
struct Buffers {
    kernel: usize,
    size: Size,
    plane: Vec<i32>,
    /// The plane's last coefficient, which is altered to have it refused.
    last: i32,
    undone: Vec<i32>,
    shown: Vec<u16>,
}

impl Buffers {
    fn new(kernel: usize, size: Size, samples: &[u16]) -> Buffers {
        let mut plane = vec![0; size.samples()];
        let Size { w, h } = size;
        let plane_of = reference::transform;
        accepted(plane_of(kernel, LEVELS, DEPTH, w, h, samples, &mut plane));
        Buffers {
            kernel,
            size,
            last: plane[size.samples() - 1],
            plane,
            undone: vec![0; size.samples()],
            shown: vec![0; size.samples()],
        }
    }

    fn put_last(&mut self, coefficient: i32) {
        let place = self.plane.len() - 1;
        self.plane[place] = coefficient;
    }

    /// The library's picture at level r, in front in both buffers.
    fn show_level(&mut self, r: usize) -> u64 {
        let Size { w, h } = self.size;
        let len = self.size.area(r).samples();
        bindings::show_level(
            self.kernel,
            LEVELS,
            r,
            DEPTH,
            w,
            h,
            &self.plane,
            &mut self.undone[..len],
            &mut self.shown[..len],
        )
    }

    fn accept(&mut self, r: usize) {
        self.put_last(self.last);
        accepted(self.show_level(r));
    }

    fn refuse(&mut self, r: usize) {
        self.put_last(TOO_LARGE);
        assert_eq!(self.show_level(r), 10, "the last coefficient is refused");
    }

    fn undo_and_show(&mut self) {
        let Size { w, h } = self.size;
        let (plane, undone) = (&self.plane, &mut self.undone);
        accepted(bindings::undo(self.kernel, LEVELS, w, h, plane, undone));
        accepted(bindings::show(DEPTH, w, h, &self.undone, &mut self.shown));
    }

    /// The buffers as they are before the first call of a level.
    fn clear(&mut self) {
        self.put_last(self.last);
        self.undone.fill(-1);
        self.shown.fill(u16::MAX);
    }

    /// That both buffers hold what the reference gives.
    fn compare(&mut self, r: usize) {
        let Size { w, h } = self.size;
        let len = self.size.area(r).samples();
        let (mut undone, mut shown) = (vec![0; len], vec![0; len]);
        self.put_last(self.last);
        accepted(reference::show_level(
            self.kernel,
            LEVELS,
            r,
            DEPTH,
            w,
            h,
            &self.plane,
            &mut undone,
            &mut shown,
        ));
        assert!(
            self.undone[..len] == undone && self.shown[..len] == shown,
            "level {r}: library and reference differ"
        );
    }
}

/// Times the whole call and, by a refused one, its tests alone. The refused call, the
/// last, leaves the answer in the buffers.
fn level_times(buffers: &RefCell<Buffers>, r: usize) -> Parted {
    buffers.borrow_mut().clear();
    let mut accepted = || buffers.borrow_mut().accept(r);
    let mut refused = || buffers.borrow_mut().refuse(r);
    let times = parted(&mut accepted, &mut refused);
    buffers.borrow_mut().compare(r);
    times
}

fn undo_and_show_time(buffers: &RefCell<Buffers>) -> f64 {
    buffers.borrow_mut().clear();
    let [time] = best([&mut || buffers.borrow_mut().undo_and_show()]);
    buffers.borrow_mut().compare(0);
    time
}

/// OpenJPEG's time for kernel 3, as far as a level is undone there; its picture must be
/// the one in the buffers.
fn outside_time(buffers: &Buffers, samples: &[u16], r: usize) -> Option<f64> {
    if buffers.kernel != 3 || r == LEVELS {
        return None;
    }
    let (time, picture) = outside_53::at_level(samples, buffers.size, LEVELS, r)?;
    assert!(
        buffers.undone[..picture.len()] == picture,
        "level {r}: library and OpenJPEG differ"
    );
    Some(time)
}

fn print_level(
    name: &str,
    r: usize,
    area: Size,
    times: Parted,
    full: Parted,
    outside: Option<f64>,
) {
    let Parted { whole, part, rest } = times;
    print!("| {name} | {r} | {area} | {whole:.3} ");
    print!("| 1 : {:.1} | {part:.3} | {rest:.3} ", full.whole / whole);
    if rest < part / 100.0 {
        println!("| too short | | |");
        return;
    }
    print!("| 1 : {:.1} ", full.rest / rest);
    match outside {
        Some(time) => println!("| {time:.3} | {:.2} |", rest / time),
        None => println!("| | |"),
    }
}

/// Gives how many times the asked level's time level 0 takes: the whole call, and
/// without its tests.
fn print_kernel(kernel: usize, size: Size, samples: &[u16]) -> [f64; 2] {
    let buffers = RefCell::new(Buffers::new(kernel, size, samples));
    let name = KERNELS[kernel];
    let mut levels: Vec<Parted> = Vec::new();
    for r in 0..=LEVELS {
        levels.push(level_times(&buffers, r));
        let outside = outside_time(&buffers.borrow(), samples, r);
        print_level(name, r, size.area(r), levels[r], levels[0], outside);
    }
    let time = undo_and_show_time(&buffers);
    println!("| {name} | undo, show | {size} | {time:.3} | | | | | | |");
    let (full, asked) = (levels[0], levels[ASKED]);
    [full.whole / asked.whole, full.rest / asked.rest]
}

/// One look at every coefficient of a plane, the least that a test of each can take.
fn look_time(size: Size) -> f64 {
    let plane = vec![1; size.samples()];
    let look = || plane.iter().fold(0, |all, &c: &i32| all | c);
    let [time] = best([&mut || {
        black_box(look());
    }]);
    time
}

/// The least and the largest share.
fn range(times: [f64; 4]) -> String {
    let least = times.into_iter().fold(f64::INFINITY, f64::min);
    let most = times.into_iter().fold(f64::NEG_INFINITY, f64::max);
    format!("1 : {least:.1} to 1 : {most:.1}")
}

pub fn print(size: Size, samples: &[u16]) {
    println!("## Small picture\n");
    println!(
        "The plane of a {size} picture with five levels, shown at level r by one call of \
         dhiirqobaal_show_level. Tests: the same call on a plane whose last coefficient is 2^22; it is \
         refused with 10 after all tests, the pass over the whole plane among them, and nothing is \
         undone. Both are called in turn; undone and shown is the median of the differences ('too short' \
         under a hundredth of the tests). Shares are of r = 0's time in the column before. The last line \
         of each kernel, for comparison: dhiirqobaal_undo and then dhiirqobaal_show, which give what \
         r = 0 gives. OpenJPEG undoes: the best time of its 5/3 back to the same resolution, from the \
         same coefficients with rows and columns exchanged, in place, without any test and without \
         showing; its numbers were the library's.\n"
    );
    println!(
        "| kernel | r | area | whole call | share | tests | undone and shown | share \
         | OpenJPEG undoes | undone and shown : OpenJPEG |"
    );
    println!("|:--|{}", "---:|".repeat(9));
    let shares = [0, 1, 2, 3].map(|kernel| print_kernel(kernel, size, samples));
    println!(
        "\nAsked of r = {ASKED} is about a 64th of r = 0, with no work on levels that are not undone and none \
         outside the area. Undone and shown: {}. The whole calls: {}, since 10 is asked of every \
         coefficient of the plane, whatever r is. A plain Rust loop that looks at each of as many \
         numbers, and does no more than or them, took {:.3} ms in the same run. \
         dhiirqobaal_show_stream has no such test.\n",
        range(shares.map(|[_, rest]| rest)),
        range(shares.map(|[whole, _]| whole)),
        look_time(size),
    );
}
