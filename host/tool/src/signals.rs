//! Signals: an interrupt leaves no temporary file, and the limit of a file's size is a failure like any other.

use std::fs;
use std::path::PathBuf;
use std::process;
use std::sync::{Mutex, MutexGuard, PoisonError};

const STATUS_INTERRUPTED: i32 = 128 + 2;

/// The numbers that Linux has for the signals, and for ignoring one.
const HANGUP: i32 = 1;
const INTERRUPT: i32 = 2;
const TERMINATE: i32 = 15;
const FILE_SIZE: i32 = 25;
const DEFAULT: usize = 0;
const IGNORE: usize = 1;

extern "C" {
    /// The C library's: sets what a signal does, and answers what it did before.
    fn signal(number: i32, action: usize) -> usize;
    /// The C library's: sends a signal to the program itself.
    fn raise(number: i32) -> i32;
}

/// The temporary file of an output that is being written.
static TEMPORARY: Mutex<Option<PathBuf>> = Mutex::new(None);

/// Holds an interrupt off while the temporary file is made, or takes its target's place.
pub fn temporary() -> MutexGuard<'static, Option<PathBuf>> {
    TEMPORARY.lock().unwrap_or_else(PoisonError::into_inner)
}

fn set(number: i32, action: usize) -> usize {
    // SAFETY: the actions are the two that run no code.
    unsafe { signal(number, action) }
}

/// To be called once, before any file is written.
pub fn prepare() -> Result<(), ctrlc::Error> {
    // A write beyond the limit then fails instead of ending the program.
    set(FILE_SIZE, IGNORE);
    // What is ignored stays so: a hangup under nohup, an interrupt in the background.
    let ignored = [HANGUP, INTERRUPT, TERMINATE].map(|number| (number, set(number, DEFAULT)));
    ctrlc::set_handler(|| {
        let held = temporary();
        if let Some(path) = &*held {
            let _ = fs::remove_file(path);
        }
        // A shell that runs a loop of calls ends it where one dies of the interrupt, not where one ends by itself.
        set(INTERRUPT, DEFAULT);
        // SAFETY: nothing is left to be done.
        unsafe { raise(INTERRUPT) };
        process::exit(STATUS_INTERRUPTED)
    })?;
    for (number, _) in ignored.into_iter().filter(|(_, action)| *action == IGNORE) {
        set(number, IGNORE);
    }
    Ok(())
}
