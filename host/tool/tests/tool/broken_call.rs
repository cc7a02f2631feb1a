//! The call that breaks off: what it leaves is taken as the stream cut to what arrived.

use crate::{mended, two_rectangles, Folder, UNMARKED, WORKED};

/// The first bytes of the stream, as a broken call leaves them.
fn break_off(here: &Folder, length: usize) {
    here.put("part", &here.get("all.stream")[..length]);
}

#[test]
fn from_the_region_mark_on_the_rectangles_are_exact() {
    let here = Folder::new();
    let (mark, total) = two_rectangles(&here, "--levels 5");
    for length in [mark, mark + 1, (mark + total) / 2, total - 1] {
        break_off(&here, length);
        let words = format!("{length} of {total} bytes arrived; every bit of the 2 rectangles arrived");
        here.ends("show part shown.pgm", 0, &words);
        here.ends("compare in.pgm shown.pgm --stream part", 0, &words);
        here.ends("compare in.pgm shown.pgm --stream part", 0, "no difference in 94 samples");
        here.ends("info part", 0, &format!("{length} of {total} bytes arrived"));
        here.ends(&format!("cut all.stream cut --length {length}"), 0, "");
        here.ends("show cut cut.pgm", 0, "");
        assert_eq!(here.get("shown.pgm"), here.get("cut.pgm"));
    }
}

#[test]
fn below_the_region_mark_they_are_shown_and_not_exact() {
    let here = Folder::new();
    let (mark, total) = two_rectangles(&here, "");
    for length in [14 + 8 * 2, 31, mark - 1] {
        break_off(&here, length);
        let words = format!("{length} of {total} bytes arrived; not every bit of the 2 rectangles arrived");
        here.ends("show part shown.pgm", 1, &words);
        here.ends("info part", 1, "not every bit of the 2 rectangles arrived");
        here.ends(&format!("cut part cut --length {length}"), 3, "refused 15: the marked part is not whole");
    }
}

#[test]
fn what_arrived_is_cut_like_the_whole_stream() {
    let here = Folder::new();
    let (mark, total) = two_rectangles(&here, "");
    break_off(&here, total - 9);
    for length in [mark, mark + 5, total - 9] {
        here.ends(&format!("cut all.stream whole --length {length}"), 0, "");
        here.ends(&format!("cut part cut --length {length}"), 0, &format!("{} of {total} bytes arrived", total - 9));
        assert_eq!(here.get("cut"), here.get("whole"));
    }
    here.ends(&format!("cut part no --length {}", total - 8), 3, "refused 15: the wanted length");
    assert!(!here.path("no").exists());
}

/// The file itself stays as it is.
#[test]
fn the_file_is_not_mended() {
    let here = Folder::new();
    here.put("part", &WORKED[..23]);
    here.ends("info part", 1, "23 of 24 bytes arrived");
    here.ends("show part out.pgm", 1, "23 of 24 bytes arrived");
    here.ends("brightness part", 1, "23 of 24 bytes arrived");
    assert_eq!(here.get("part"), &WORKED[..23]);
}

#[test]
fn the_worked_stream_without_a_rectangle_cut_to_15_bytes() {
    let here = Folder::new();
    here.put("part", &UNMARKED[..15]);
    here.ends("cut part cut --length 15", 1, "15 of 16 bytes arrived; no rectangle is marked; not every bit");
    assert_eq!(here.get("cut"), mended(UNMARKED[..15].to_vec()));
    here.ends("show part out.pgm", 1, "15 of 16 bytes arrived");
    // The plane 6 0 / 4 0 undone: lows 6 and 4 with highs of 0.
    assert_eq!(here.get("out.pgm"), b"P5\n2 2\n255\n\x08\x08\x04\x04");
}

#[test]
fn a_header_that_is_not_whole_is_refused() {
    let here = Folder::new();
    for length in [0, 1, 13] {
        here.put("part", &WORKED[..length]);
        here.ends("info part", 3, "refused 12: the stream is shorter than its header");
        here.ends("show part out", 3, "where a header has 14 at least");
        here.ends("brightness part", 3, "where a header has 14 at least");
    }
    for length in [14, 21] {
        here.put("part", &WORKED[..length]);
        let words = format!("a header of 1 rectangle needs 22 bytes, and {length} are there");
        here.ends("cut part out --mark", 3, &words);
    }
    here.put("part", &WORKED[..22]);
    here.ends("info part", 1, "22 of 24 bytes arrived");
    here.ends("brightness part", 1, "22 of 24 bytes arrived; not every bit of the rectangle arrived: 1 of 1 line");
}

#[test]
fn a_file_longer_than_its_field_says_is_refused() {
    let here = Folder::new();
    here.put("long", [&WORKED[..], b"x"].concat());
    here.put("in.pgm", "P2 2 2 255  10 7 4 4 ");
    let words = "long: refused 12: the length field does not fit the length: 25 bytes, where by that field they are 24";
    let compare = "compare in.pgm in.pgm --stream long";
    for line in ["info long", "show long out", "cut long out --mark", compare, "brightness long"] {
        here.ends(line, 3, words);
    }
    here.ends("info long", 3, "other bytes stand behind it, which 'head -c 24 IN > OUT' takes off");
}
