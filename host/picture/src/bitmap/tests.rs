use super::*;
use crate::chance::{chance, changed};

fn refused(file: &[u8], word: &str) {
    let message = parse(file).expect_err("should be turned back");
    assert!(message.contains(word), "{message}");
}

fn bitmap(width: usize, height: usize, samples: &[u8]) -> Bitmap {
    Bitmap { width, height, samples: samples.to_vec() }
}

#[test]
fn raw_eight_samples_a_byte_the_highest_bit_first() {
    assert_eq!(parse(b"P4\n8 2\n\xb2\x01").unwrap(), bitmap(8, 2, &[1, 0, 1, 1, 0, 0, 1, 0, 0, 0, 0, 0, 0, 0, 0, 1]));
    assert_eq!(parse(b"P4 1 1 \x80").unwrap(), bitmap(1, 1, &[1]));
}

#[test]
fn a_row_begins_at_a_whole_byte() {
    let ten = parse(b"P4 10 2 \x80\x40\x00\x80").unwrap();
    let rows = [[1, 0, 0, 0, 0, 0, 0, 0, 0, 1], [0, 0, 0, 0, 0, 0, 0, 0, 1, 0]];
    assert_eq!(ten, bitmap(10, 2, &rows.concat()));
    assert_eq!(parse(b"P4 1 3 \x80\x00\x80").unwrap(), bitmap(1, 3, &[1, 0, 1]));
}

#[test]
fn what_fills_a_row_up_is_not_read_and_is_written_as_0() {
    let three = bitmap(3, 2, &[1, 0, 1, 0, 1, 0]);
    assert_eq!(parse(b"P4 3 2 \xa0\x40").unwrap(), three);
    assert_eq!(parse(b"P4 3 2 \xbf\x5f").unwrap(), three);
    assert_eq!(format(&three).unwrap(), b"P4\n3 2\n\xa0\x40");
}

#[test]
fn the_first_byte_may_look_like_white_space_or_a_comment() {
    assert_eq!(parse(b"P4 8 2\n\n#").unwrap().samples, [[0, 0, 0, 0, 1, 0, 1, 0], [0, 0, 1, 0, 0, 0, 1, 1]].concat());
    assert_eq!(parse(b"P4 8 1\r\n").unwrap().samples, [0, 0, 0, 0, 1, 0, 1, 0]);
}

#[test]
fn plain_with_blanks_and_without() {
    let two_rows = bitmap(3, 2, &[0, 1, 0, 1, 1, 1]);
    for file in [
        &b"P1\n3 2\n0 1 0\n1 1 1\n"[..],
        b"P1\n3 2\n010\n111\n",
        b"P1 3 2 010111",
        b"P1\t3\r\n2\r0101\t\t1\n\n1",
        b"P1\n3 2\n0101\n11 and so on",
    ] {
        assert_eq!(parse(file).unwrap(), two_rows, "{}", file.escape_ascii());
    }
}

#[test]
fn comments_in_the_header_and_between_plain_samples() {
    let raw = parse(b"P4# made by hand\n#\n# 9 9\n8 # width\n1# height\n\xf0").unwrap();
    assert_eq!(raw, bitmap(8, 1, &[1, 1, 1, 1, 0, 0, 0, 0]));
    assert_eq!(parse(b"P1 #a\n3 1 #b\r1#1\n0 # 0 0\n#\n1#").unwrap(), bitmap(3, 1, &[1, 0, 1]));
}

/// A plain file: digits without white space, a row a line.
fn plain(bitmap: &Bitmap) -> Vec<u8> {
    let digits = |row: &[u8]| row.iter().map(u8::to_string).collect::<String>();
    let rows: Vec<String> = bitmap.samples.chunks(bitmap.width).map(digits).collect();
    format!("P1\n{} {}\n{}\n", bitmap.width, bitmap.height, rows.join("\n")).into_bytes()
}

#[test]
fn what_was_formatted_is_parsed_again() {
    let mut next = chance();
    for (width, height) in [(1, 1), (7, 3), (8, 2), (9, 2), (16, 1), (17, 5), (1, 9), (71, 2), (140, 1)] {
        let samples: Vec<u8> = (0..width * height).map(|_| next(2) as u8).collect();
        let made = bitmap(width, height, &samples);
        assert_eq!(parse(&format(&made).unwrap()).unwrap(), made);
        assert_eq!(parse(&plain(&made)).unwrap(), made);
        assert_eq!(made.inside(), samples.iter().map(|&s| usize::from(s)).sum());
    }
}

#[test]
fn the_first_bitmap_of_a_file_is_read() {
    assert_eq!(parse(b"P4 8 1 \xffP4 8 1 \x00").unwrap().inside(), 8);
    assert_eq!(parse(b"P4 8 1 \xff\n").unwrap().inside(), 8);
    assert_eq!(parse(b"P1 2 1 11 P1 2 1 00").unwrap().inside(), 2);
}

#[test]
fn no_white_space_behind_the_letters() {
    for file in [&b"P48 1 \xff"[..], b"P11 1 1", b"P1x"] {
        refused(file, "not a PBM bitmap: no white space stands behind P");
    }
}

#[test]
fn every_cut_is_turned_back() {
    for file in [&b"P4 # c\n10 2\n\x01\x40\x02\x80"[..], b"P1\n3 2\n010\n111"] {
        assert!(parse(file).is_ok());
        for length in 2..file.len() {
            refused(&file[..length], "cut");
        }
    }
    refused(b"P4 10 2 \x01\x40\x02", "3 of 4 bytes of samples are there");
    refused(b"P1 3 2 01 01 # 11", "4 of 6 samples are there");
}

#[test]
fn bad_numbers() {
    refused(b"P4 -1 1 a", "the width is not a number");
    refused(b"P4 1 1x a", "the height is not a number");
    refused(b"P4 0 1 ", "is 0");
    refused(b"P1 1 0 1", "is 0");
    refused(b"P1 3 2 010 121", "the sample in column 1, row 1 (counted from 0) is '2', not 0 or 1");
    refused(b"P1 3 2 0,1,0", "the sample in column 1, row 0 (counted from 0) is ',', not 0 or 1");
    refused(b"P1 1 1 \x1b", "is '\\x1b', not 0 or 1");
}

#[test]
fn huge_numbers_take_no_memory() {
    refused(b"P4 99999999999999999999 1 a", "the width is too large");
    refused(b"P4 2147483648 1 a", "the width is too large");
    for letters in ["P4", "P1"] {
        refused(format!("{letters} 2147483647 2147483647 1").as_bytes(), "more than the 268435456 that are read");
        refused(format!("{letters} 16384 16385 1").as_bytes(), "'pamcut' (netpbm) takes a part of it");
    }
    refused(b"P4 16384 16384 a", "1 of 33554432 bytes");
    refused(b"P1 16384 16384 1", "1 of 268435456 samples");
}

#[test]
fn a_header_with_cr_lf_is_told_where_a_byte_is_left() {
    assert!(odd(b"P4\r\n8 1\r\na").is_some());
    assert!(odd(b"P4\r\n9 1\r\nab").is_some());
    for file in [
        &b"P4\r\n8 1\r\n"[..],
        b"P4\r\n9 1\r\na",
        b"P4\n8 1\n\na",
        b"P4 8 1\ra\n",
        b"P1\r\n2 1\r\n01\r\n",
        b"P4 8",
        b"P4",
    ] {
        assert_eq!(odd(file), None);
    }
}

#[test]
fn no_file_is_made_of_a_bitmap_that_is_none() {
    for wrong in [
        bitmap(0, 1, &[]),
        bitmap(1, 0, &[]),
        bitmap(2, 2, &[0; 3]),
        bitmap(usize::MAX, 2, &[0; 3]),
        bitmap(2, 1, &[0, 2]),
    ] {
        assert!(format(&wrong).is_err(), "{wrong:?}");
    }
}

#[test]
fn whatever_is_changed_is_parsed_or_turned_back() {
    for file in [&b"P4 # c\n11 2\n\x00\x10\x02\x33"[..], b"P1\n3 2\n#\n010\n1 1 1\n"] {
        changed(file, |changed| {
            if let Ok(found) = parse(changed) {
                assert_eq!(found.samples.len(), found.width * found.height);
                assert!(found.samples.iter().all(|&s| s <= 1));
            }
        });
    }
}
