//! Names the case in hand should the library end the program by a signal or
//! not come back.

use std::sync::atomic::{AtomicU64, Ordering};

static CASE: AtomicU64 = AtomicU64::new(0);

const SIGILL: i32 = 4;
const SIGABRT: i32 = 6;
const SIGBUS: i32 = 7;
const SIGFPE: i32 = 8;
const SIGSEGV: i32 = 11;
const SIGALRM: i32 = 14;

/// No case comes near this time.
const SECONDS: u32 = 120;

extern "C" {
    fn signal(number: i32, handler: extern "C" fn(i32)) -> usize;
    fn alarm(seconds: u32) -> u32;
    fn _exit(status: i32) -> !;
}

extern "C" fn name_case(number: i32) {
    println!("signal {number} in case {}", CASE.load(Ordering::Relaxed));
    // SAFETY: ends the program.
    unsafe { _exit(1) }
}

pub fn watch() {
    for number in [SIGILL, SIGABRT, SIGBUS, SIGFPE, SIGSEGV, SIGALRM] {
        // SAFETY: the handler ends the program and touches nothing of a call.
        unsafe {
            signal(number, name_case);
        }
    }
}

pub fn in_hand(case: u64) {
    CASE.store(case, Ordering::Relaxed);
    // SAFETY: its signal has a handler; each case sets the time anew.
    unsafe {
        alarm(SECONDS);
    }
}
