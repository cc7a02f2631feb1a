//! Runs one level of each kernel over a 2,048 by 2,048 picture by the passes
//! before paper 3 of document 02 and by today's, forward and back, and prints
//! the best times of both in milliseconds. The planes must be equal, and so must
//! the undone numbers, of the plane and of one with its lowest bits dropped.

mod earlier;

use std::cell::RefCell;
use std::process::ExitCode;

use benchmark::picture;
use benchmark::timing::best;

const SIDE: usize = 2048;
const CELLS: usize = SIDE * SIDE;
const DEPTH: usize = 8;
const LEVELS: usize = 1;
const DROPPED: usize = 3;
const KERNELS: [&str; 4] = ["0, S", "1, S+P", "2, TT", "3, 5/3"];

/// The best times before and now.
type Times = [f64; 2];

fn accepted(number: u64) {
    assert_eq!(number, 0, "the arguments are accepted");
}

/// True if all cells are equal; the first that is not is printed.
fn equal(what: &str, kernel: usize, before: &[i32], now: &[i32]) -> bool {
    let cells = before.iter().zip(now);
    let first = cells.enumerate().find(|(_, (a, b))| a != b);
    if let Some((i, (a, b))) = first {
        let (x, y) = (i % SIDE, i / SIDE);
        println!("FAILED: kernel {kernel}, {what} at ({x}, {y}): {a} before, {b} now");
    }
    first.is_none() && before.len() == now.len()
}

/// One way of a level: into the buffer, the number that is returned.
type Way<'a> = &'a dyn Fn(&mut [i32]) -> u64;

/// The best times of both ways. They fill the same buffer in turn, since times
/// depend on where a buffer lies.
fn timed(before: Way, now: Way) -> Times {
    let buffer = RefCell::new(vec![0; CELLS]);
    best([
        &mut || accepted(before(&mut buffer.borrow_mut())),
        &mut || accepted(now(&mut buffer.borrow_mut())),
    ])
}

/// What both ways give. The buffers differ at first, so that a cell that is not
/// written shows.
fn given(before: Way, now: Way) -> [Vec<i32>; 2] {
    let [mut a, mut b] = [-1, -2].map(|n| vec![n; CELLS]);
    accepted(before(&mut a));
    accepted(now(&mut b));
    [a, b]
}

/// The best times, the plane of today's passes, and whether both are equal.
fn transform(kernel: usize, samples: &[u16]) -> (Times, Vec<i32>, bool) {
    let before = |plane: &mut [i32]| earlier::transform(kernel, SIDE, SIDE, samples, plane);
    let now =
        |plane: &mut [i32]| bindings::transform(kernel, LEVELS, DEPTH, SIDE, SIDE, samples, plane);
    let [a, b] = given(&before, &now);
    let same = equal("plane", kernel, &a, &b);
    (timed(&before, &now), b, same)
}

/// The best times for the plane, and whether the undone numbers are equal, those
/// of the coarse plane too.
fn undo(kernel: usize, plane: &[i32]) -> (Times, bool) {
    let before = |from: &[i32], undone: &mut [i32]| earlier::undo(kernel, SIDE, SIDE, from, undone);
    let now =
        |from: &[i32], undone: &mut [i32]| bindings::undo(kernel, LEVELS, SIDE, SIDE, from, undone);
    let coarse = coarse(plane);
    let same = [plane, &coarse].map(|from| {
        let [a, b] = given(&|u| before(from, u), &|u| now(from, u));
        equal("undone number", kernel, &a, &b)
    });
    let times = timed(&|u| before(plane, u), &|u| now(plane, u));
    (times, same == [true, true])
}

/// The plane with the lowest bits of every coefficient dropped.
fn coarse(plane: &[i32]) -> Vec<i32> {
    let mut coarse = plane.to_vec();
    let nothing_marked = vec![0; CELLS];
    accepted(bindings::truncate(
        DROPPED,
        SIDE,
        SIDE,
        &nothing_marked,
        &mut coarse,
    ));
    coarse
}

fn columns([before, now]: Times) -> String {
    format!("{before:.3} | {now:.3} | {:.2}", now / before)
}

/// Compares one kernel and prints its line.
fn compare(kernel: usize, samples: &[u16]) -> [bool; 2] {
    let (there, plane, same_plane) = transform(kernel, samples);
    let (back, same_undone) = undo(kernel, &plane);
    println!(
        "| {} | {} | {} |",
        KERNELS[kernel],
        columns(there),
        columns(back)
    );
    [same_plane, same_undone]
}

fn main() -> ExitCode {
    let samples = picture(SIDE, SIDE);
    println!(
        "| kernel | transform, earlier | now | now : earlier | undo, earlier | now | now : earlier |"
    );
    println!("|:--|{}", "---:|".repeat(6));
    let verdicts: Vec<bool> = (0..4)
        .flat_map(|kernel| compare(kernel, &samples))
        .collect();
    let passed = verdicts.iter().filter(|&&passed| passed).count();
    let failed = verdicts.len() - passed;
    println!("{passed} passed, {failed} failed");
    if failed > 0 {
        return ExitCode::FAILURE;
    }
    ExitCode::SUCCESS
}
