//! What the user is told: reports, notes and progress.

use crate::failure::Failure;
use crate::output;
use crate::words;
use std::io::{self, IsTerminal, Write};

/// Pictures of this many samples take long enough that the user wants to know how far the work is.
const LARGE: usize = 1 << 22;

/// A line for standard error. Where that is closed, nobody is left to be told.
pub fn tell(text: &str) {
    let _ = writeln!(io::stderr(), "dhiirqobaal: {text}");
}

/// What may be said in a call, and where.
#[derive(Clone, Copy)]
pub struct Messages {
    pub quiet: bool,
    /// Data goes to standard output, so that reports go to standard error.
    pub data: bool,
}

impl Messages {
    /// What the command was asked for, a line or several.
    pub fn report(&self, text: &str) -> Result<(), Failure> {
        if self.quiet {
            return Ok(());
        }
        if self.data {
            let _ = writeln!(io::stderr(), "{text}");
            return Ok(());
        }
        match output::to_standard_output(format!("{text}\n").as_bytes()) {
            // Who reads it has read enough.
            Err(error) if error.kind() == io::ErrorKind::BrokenPipe => Ok(()),
            written => written.map_err(|error| Failure::input_output(words::reason(&error)).of("standard output")),
        }
    }

    /// What the user should know beside it.
    pub fn note(&self, text: &str) {
        if !self.quiet {
            tell(text);
        }
    }

    /// What is being done now, where that takes long and somebody is watching.
    pub fn progress(&self, samples: usize, doing: &str) {
        if samples >= LARGE && !self.quiet && io::stderr().is_terminal() {
            tell(&format!("{doing} ..."));
        }
    }
}
