//! Numbers, counts and reasons, read and put into words.

use std::io;
use std::str::FromStr;

/// A whole number in decimal digits alone: Rust's own reading takes a sign in front.
pub fn number<T: FromStr>(text: &str) -> Option<T> {
    text.bytes().all(|c| c.is_ascii_digit()).then(|| text.parse().ok())?
}

/// A whole number with a comma before every three digits.
pub fn grouped(number: u64) -> String {
    let digits = number.to_string();
    let groups: Vec<_> = digits.as_bytes().rchunks(3).rev().map(String::from_utf8_lossy).collect();
    groups.join(",")
}

/// A length as a number with commas.
pub fn size(count: usize) -> String {
    grouped(count as u64)
}

/// How many things there are, the thing in the singular where it is one.
pub fn count(number: usize, thing: &str) -> String {
    match number {
        1 => format!("1 {thing}"),
        _ => format!("{} {thing}s", size(number)),
    }
}

/// A name or a line as it can be printed: control characters would do something to the terminal.
pub fn printable(text: &str) -> String {
    text.chars().map(|c| if c.is_control() { c.escape_default().to_string() } else { c.to_string() }).collect()
}

/// Why the system could not do it, in its own words, without its number.
pub fn reason(error: &io::Error) -> String {
    let text = error.to_string();
    let words = text.split(" (os error").next().unwrap_or_default();
    let mut letters = words.chars();
    match letters.next() {
        Some(first) => first.to_lowercase().chain(letters).collect(),
        None => "no reason is given".to_string(),
    }
}

#[cfg(test)]
mod tests {
    use super::*;

    #[test]
    fn numbers_have_a_comma_before_every_three_digits() {
        assert_eq!([0, 999, 1000, 57600, 1251984].map(grouped), ["0", "999", "1,000", "57,600", "1,251,984"]);
    }

    #[test]
    fn control_characters_are_written_out() {
        assert_eq!(printable("a b\u{1b}[2J\nä.pgm"), "a b\\u{1b}[2J\\nä.pgm");
    }

    #[test]
    fn one_thing_is_singular() {
        assert_eq!([0, 1, 2, 1000].map(|n| count(n, "byte")), ["0 bytes", "1 byte", "2 bytes", "1,000 bytes"]);
    }

    #[test]
    fn a_reason_has_words_alone() {
        assert_eq!(reason(&io::Error::from_raw_os_error(2)), "no such file or directory");
        assert_eq!(reason(&io::Error::other("Broken")), "broken");
    }
}
