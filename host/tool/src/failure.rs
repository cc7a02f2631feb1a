//! How a call ends: the exit status, and the message where something went wrong.

use std::fmt;
use std::process::ExitCode;

/// The exit statuses. Of several files, the largest one counts.
#[derive(Clone, Copy, Debug, Eq, Ord, PartialEq, PartialOrd)]
pub enum Status {
    Done = 0,
    NotExact = 1,
    Usage = 2,
    Refused = 3,
    InputOutput = 4,
}

/// What each status means, for the help text.
pub const STATUSES: &str = "\
Exit status:
  0  done; in show, info and cut every marked bit arrived, so that every rectangle is exact (at a
     level above 0: what the whole stream shows there); in compare no sample differs; in
     brightness no line has exact=no
  1  shown or told, but not exact: not every marked bit arrived or, with no rectangle, not every
     bit of the picture; in compare a sample differs, or nothing was compared; in brightness a
     line has exact=no, or nothing was measured
  2  wrong usage
  3  refused by the codec, with the refusal's number
  4  input or output failed: a file cannot be read or written, or does not hold what is taken;
     in compare the pictures have different sizes
Of several files the worst counts, in the order 4, 3, 1, 0. An interrupted call dies of the
interrupt, 130 in a shell.";

impl From<Status> for ExitCode {
    fn from(status: Status) -> ExitCode {
        ExitCode::from(status as u8)
    }
}

/// Why a call, or its part that works on one file, could not be done.
#[derive(Debug)]
pub struct Failure {
    pub status: Status,
    text: String,
}

impl Failure {
    pub fn usage(text: impl Into<String>) -> Failure {
        let text = format!("{}\n\nFor more information try '--help'", text.into());
        Failure { status: Status::Usage, text }
    }

    pub fn input_output(text: impl Into<String>) -> Failure {
        Failure { status: Status::InputOutput, text: text.into() }
    }

    /// A refusal by its number, with the words that say what was refused and why.
    pub fn refused(number: u64, words: &str) -> Failure {
        Failure { status: Status::Refused, text: format!("refused {number}: {words}") }
    }

    /// The same failure, with the file that it is about.
    pub fn of(self, name: &str) -> Failure {
        Failure { text: format!("{name}: {}", self.text), ..self }
    }

    /// The same failure, with what to do about it.
    pub fn with(self, advice: &str) -> Failure {
        Failure { text: self.text + advice, ..self }
    }
}

impl fmt::Display for Failure {
    fn fmt(&self, f: &mut fmt::Formatter<'_>) -> fmt::Result {
        f.write_str(&self.text)
    }
}

/// The refusals' numbers and meanings, as docs/FORMAT.md and the C header have them.
const REFUSALS: [(u64, &str); 18] = [
    (1, "the kernel is not 0 to 3"),
    (2, "the levels J are not 1 to 5"),
    (3, "the depth D is not 1 to 10"),
    (4, "width or height is not 1 to 4,096"),
    (5, "a buffer is not as long as the picture or the area that it is for"),
    (6, "a sample is above 2^D - 1"),
    (7, "there are more than 32 rectangles"),
    (8, "a rectangle is empty or not wholly inside the picture"),
    (9, "a region or mask byte is above 1"),
    (10, "a coefficient's magnitude is 2^22 or more"),
    (11, "the stream buffer is too short"),
    (12, "the stream is shorter than its header, or its length field does not fit its length"),
    (13, "the stream's version is not 1"),
    (14, "the stream's plane count T is above 22"),
    (15, "the wanted length is below the region mark or above the stream's length, or the marked part is not whole"),
    (16, "behind the complete body there is a filling bit that is not 0, or a further byte"),
    (17, "the level r is above the levels J"),
    (19, "the region is without a sample"),
];

/// The meaning of a refusal's number.
pub fn meaning(number: u64) -> &'static str {
    let found = REFUSALS.iter().find(|(refusal, _)| *refusal == number);
    found.map_or("a number that the interface does not have", |(_, text)| text)
}

#[cfg(test)]
mod tests {
    use super::*;

    /// The C header's texts of 3 and 7 go on with causes that the tool cannot meet.
    #[test]
    fn the_c_header_begins_its_texts_with_the_same_words() {
        let header = include_str!("../../include/dhiirqobaal.h");
        for (number, text) in REFUSALS {
            assert!(header.contains(&format!("case {number}: return \"{text}")), "{number}: {text}");
        }
        assert!(header.contains(&format!("default: return \"{}\"", meaning(u64::MAX))));
    }

    #[test]
    fn the_refusals_of_the_library_say_the_same_words() {
        let refusals = include_str!("../../../crates/refusal/src/lib.rt");
        for (number, text) in REFUSALS {
            assert!(refusals.contains(&format!("\"{text}\"")), "{number}: {text}");
        }
    }
}
