//! The cable: how long it takes for some bytes, and how many it carries in a time.

use crate::words::{self, number};
use std::str::FromStr;

const NANOSECONDS: u64 = 1_000_000_000;

/// A time, in whole nanoseconds, so that a length comes out the same on every machine.
#[derive(Clone, Copy, Debug, PartialEq)]
pub struct Time(u64);

impl FromStr for Time {
    type Err = String;

    /// Seconds with up to nine digits behind the point.
    fn from_str(text: &str) -> Result<Time, String> {
        let time = || {
            let (whole, part) = text.split_once('.').unwrap_or((text, "0"));
            if part.is_empty() || part.len() > 9 {
                return None;
            }
            let nanoseconds = number::<u64>(&format!("{part:0<9}"))?;
            Some(Time(number::<u64>(whole)?.checked_mul(NANOSECONDS)?.checked_add(nanoseconds)?))
        };
        time().ok_or_else(|| "a time is a number of seconds such as 2 or 0.5, of at most nine decimals".to_string())
    }
}

/// Bits a second, and the bits that the cable takes for a byte.
#[derive(Clone, Copy, Debug, PartialEq)]
pub struct Cable {
    pub baud: u64,
    pub bits_per_byte: u64,
}

impl Default for Cable {
    fn default() -> Cable {
        Cable { baud: 115_200, bits_per_byte: 8 }
    }
}

impl Cable {
    /// The seconds that the cable takes for some bytes, with some decimals, nine at most, rounded up: a time that
    /// carries the bytes.
    pub fn enough(&self, bytes: usize, decimals: u32) -> f64 {
        let unit = 10u128.pow(decimals);
        let bits = bytes as u128 * u128::from(self.bits_per_byte);
        (bits * unit).div_ceil(u128::from(self.baud)) as f64 / unit as f64
    }

    /// The whole bytes that the cable carries in a time.
    pub fn bytes_in(&self, time: Time) -> usize {
        let bits = u128::from(time.0) * u128::from(self.baud) / u128::from(NANOSECONDS);
        usize::try_from(bits / u128::from(self.bits_per_byte)).unwrap_or(usize::MAX)
    }

    /// A length with the time that it takes.
    pub fn length(&self, bytes: usize) -> String {
        format!("{}, {:.3} s", words::count(bytes, "byte"), self.enough(bytes, 3))
    }

    /// What the printed seconds are.
    pub fn rule(&self) -> String {
        let remark = match self.bits_per_byte {
            8 => " (no start and stop bits)",
            10 => " (with a start and a stop bit)",
            _ => "",
        };
        let speed = words::count(self.baud as usize, "bit");
        format!("seconds are at {speed} a second and {} bits a byte{remark}", self.bits_per_byte)
    }
}

#[cfg(test)]
mod tests {
    use super::*;

    #[test]
    fn a_second_is_14400_bytes() {
        let cable = Cable::default();
        assert_eq!(
            [1_000_000_000, 100_000_000, 69_444, 69_445].map(|n| cable.bytes_in(Time(n))),
            [14_400, 1_440, 0, 1]
        );
        assert_eq!([28_800, 98_354].map(|bytes| cable.enough(bytes, 3)), [2.0, 6.831]);
        assert_eq!(cable.length(1), "1 byte, 0.001 s");
    }

    #[test]
    fn a_printed_time_carries_the_bytes() {
        let cable = Cable::default();
        for bytes in [1, 853, 14_400, 37_586, 98_354, 1_251_984] {
            for decimals in [3, 9] {
                let time: Time = format!("{:.9}", cable.enough(bytes, decimals)).parse().unwrap();
                assert!(cable.bytes_in(time) >= bytes, "{bytes} {decimals}");
            }
        }
        assert_eq!(cable.enough(28_800, 3), 2.0);
    }

    #[test]
    fn a_second_with_start_and_stop_bit_is_11520_bytes() {
        let cable = Cable { bits_per_byte: 10, ..Cable::default() };
        assert_eq!(cable.bytes_in(Time(1_000_000_000)), 11_520);
        assert_eq!(cable.enough(23_040, 3), 2.0);
        assert_eq!(cable.length(57_600), "57,600 bytes, 5.000 s");
    }

    #[test]
    fn the_longest_time_on_the_fastest_cable_is_a_length() {
        let cable = Cable { baud: u64::MAX, bits_per_byte: 1 };
        assert_eq!(cable.bytes_in(Time(u64::MAX)), usize::MAX);
    }

    #[test]
    fn times() {
        assert_eq!("2".parse(), Ok(Time(2_000_000_000)));
        assert_eq!("0.5".parse(), Ok(Time(500_000_000)));
        assert_eq!("1.000000001".parse(), Ok(Time(1_000_000_001)));
        for text in ["", ".5", "1.", "-1", "1e3", "inf", "nan", "1.0000000001", "99999999999999999999"] {
            assert!(text.parse::<Time>().is_err(), "{text}");
        }
    }
}
