//! Regions and masks as bitmaps: drawn, joined and looked at; the mask of joined regions is their masks joined.

use crate::{finish, noise, noise_picture, Folder, WORKED};
use picture::{bitmap, Bitmap};
use std::fs;
use std::os::unix::fs::symlink;

const KERNELS: [&str; 4] = ["s", "s+p", "tt", "5/3"];

/// The bitmap of rows, in which # is inside.
fn drawn(rows: &[&str]) -> Bitmap {
    let samples = rows.concat().bytes().map(|sign| u8::from(sign == b'#')).collect();
    Bitmap { width: rows[0].len(), height: rows.len(), samples }
}

/// The same rows of a file.
fn rows(here: &Folder, name: &str) -> Vec<String> {
    let found = read(here, name);
    let row = |row: &[u8]| row.iter().map(|&sample| if sample == 1 { '#' } else { '.' }).collect();
    found.samples.chunks(found.width).map(row).collect()
}

pub fn put(here: &Folder, name: &str, made: &Bitmap) {
    here.put(name, bitmap::format(made).unwrap());
}

fn read(here: &Folder, name: &str) -> Bitmap {
    bitmap::parse(&here.get(name)).unwrap()
}

/// A bitmap that is one sample everywhere.
pub fn all(width: usize, height: usize, sample: u8) -> Bitmap {
    Bitmap { width, height, samples: vec![sample; width * height] }
}

/// A bitmap with about one of so many samples inside.
pub fn scattered(seed: u64, width: usize, height: usize, one_of: u8) -> Bitmap {
    let samples = noise(seed, width * height).into_iter().map(|byte| u8::from(byte % one_of == 0)).collect();
    Bitmap { width, height, samples }
}

/// Two regions, drawn by hand: a.pbm, raw, and b.pbm, plain.
fn two_regions(here: &Folder) {
    put(here, "a.pbm", &drawn(&["##...", "##...", ".....", "....."]));
    here.put("b.pbm", "P1\n# by hand\n5 4\n00000\n0 1 1 1 0\n00000\n00001\n");
}

const SIZES: [(usize, usize); 8] = [(1, 1), (2, 1), (5, 4), (13, 7), (31, 17), (64, 32), (70, 1), (1, 43)];

#[test]
fn the_mask_of_joined_regions_is_their_masks_joined() {
    let here = Folder::new();
    for (seed, (width, height)) in (0..).zip(SIZES) {
        put(&here, "a.pbm", &scattered(seed, width, height, 23));
        put(&here, "b.pbm", &scattered(seed + 100, width, height, 37));
        here.ends("join a.pbm b.pbm ab.pbm", 0, "2 bitmaps joined");
        for kernel in KERNELS {
            for levels in [1, 2, 3, 5] {
                let options = format!("--kernel {kernel} --levels {levels}");
                for name in ["a", "b", "ab"] {
                    here.ends(&format!("mask {name}.pbm {name}-mask.pbm {options}"), 0, " marked; kernel ");
                }
                here.ends("join a-mask.pbm b-mask.pbm joined.pbm", 0, "");
                assert_eq!(here.get("joined.pbm"), here.get("ab-mask.pbm"), "{width} by {height} {options}");
            }
        }
    }
}

/// A rectangle at a time: each step joins the mask of the new rectangle alone with the mask at hand.
#[test]
fn a_mask_grows_with_its_region() {
    let here = Folder::new();
    put(&here, "none.pbm", &all(31, 17, 0));
    put(&here, "region0.pbm", &scattered(5, 31, 17, 41));
    here.ends("mask region0.pbm mask0.pbm", 0, "");
    for (i, rectangle) in ["3,2,9,5", "24,10,7,7", "0,0,1,1", "30,0,1,17"].into_iter().enumerate() {
        let next = i + 1;
        here.ends(&format!("join region{i}.pbm region{next}.pbm --rect {rectangle}"), 0, "1 bitmap and 1 rectangle");
        here.ends(&format!("join none.pbm new.pbm --rect {rectangle}"), 0, "");
        here.ends("mask new.pbm new-mask.pbm", 0, "");
        here.ends(&format!("join mask{i}.pbm new-mask.pbm mask{next}.pbm"), 0, "");
        here.ends(&format!("mask region{next}.pbm fresh.pbm"), 0, "");
        assert_eq!(here.get(&format!("mask{next}.pbm")), here.get("fresh.pbm"), "{rectangle}");
    }
}

#[test]
fn nothing_and_everything() {
    let here = Folder::new();
    for (width, height) in SIZES {
        for sample in [0, 1] {
            put(&here, "in.pbm", &all(width, height, sample));
            for kernel in KERNELS {
                here.ends(&format!("mask in.pbm out.pbm --kernel {kernel} --levels 5"), 0, "");
                assert_eq!(here.get("out.pbm"), here.get("in.pbm"), "{width} by {height} {kernel}");
            }
        }
    }
}

/// The rows of the tables in docs/FORMAT.md, the lows in front: sample 3 of 8 marked, sample 3 of 7, sample 6 of 7.
#[test]
fn the_masks_of_the_worked_lines() {
    let here = Folder::new();
    put(&here, "8.pbm", &drawn(&["...#...."]));
    put(&here, "7.pbm", &drawn(&["...#..."]));
    put(&here, "last.pbm", &drawn(&["......#"]));
    for (kernel, eight, seven, last) in [
        ("s", ".#...#..", ".#...#.", "...#..."),
        ("s+p", "###..#..", "###..#.", "...#..."),
        ("tt", "####.#..", "####.#.", "...#..."),
        ("5/3", ".##.###.", ".##.###", "...#..#"),
    ] {
        for (name, expected) in [("8", eight), ("7", seven), ("last", last)] {
            here.ends(&format!("mask {name}.pbm mask.pbm --levels 1 --kernel {kernel}"), 0, "1 level\n");
            assert_eq!(rows(&here, "mask.pbm"), [expected], "{kernel} {name}");
        }
    }
}

#[test]
fn a_mask_has_the_low_part_in_the_upper_left() {
    let here = Folder::new();
    put(&here, "in.pbm", &drawn(&[".......", ".......", "..#....", ".......", "......."]));
    // 4 by 3 lows, 3 columns of highs beside them, 2 rows of highs below.
    here.ends("mask in.pbm out.pbm --kernel s --levels 1", 0, "");
    assert_eq!(rows(&here, "out.pbm"), [".......", ".#...#.", ".......", ".......", ".#...#."]);
    // Of these 4 by 3 now 2 by 2 are lows.
    here.ends("mask in.pbm out.pbm --kernel s --levels 2", 0, "");
    assert_eq!(rows(&here, "out.pbm"), ["#.#....", ".....#.", "#.#....", ".......", ".#...#."]);
}

#[test]
fn the_mask_of_rectangles_has_as_many_marks_as_their_stream() {
    let here = Folder::new();
    here.put("in.pgm", noise_picture(31, 17));
    put(&here, "none.pbm", &all(31, 17, 0));
    let rectangles = "--rect 3,2,9,5 --rect 24,10,7,7";
    here.ends(&format!("join none.pbm region.pbm {rectangles}"), 0, "1 bitmap and 2 rectangles joined");
    for kernel in KERNELS {
        for levels in 1..=5 {
            let options = format!("--kernel {kernel} --levels {levels}");
            let said = here.run(&format!("encode in.pgm out {rectangles} {options}")).said();
            let marks = said.lines().next().unwrap().rsplit("; ").next().unwrap();
            assert!(marks.ends_with(" of 527 coefficients marked"), "{marks}");
            here.ends(&format!("mask region.pbm mask.pbm {options}"), 0, &format!("; {marks}; "));
        }
    }
}

#[test]
fn the_kernel_and_the_levels_are_those_of_encode() {
    let here = Folder::new();
    put(&here, "in.pbm", &scattered(3, 31, 17, 29));
    here.ends("mask in.pbm default.pbm", 0, "; kernel 5/3, 3 levels\n");
    here.ends("mask --levels=3 in.pbm --kernel=53 out.pbm", 0, "; kernel 5/3, 3 levels\n");
    assert_eq!(here.get("out.pbm"), here.get("default.pbm"));
    here.ends("mask in.pbm out.pbm --kernel 1 --levels 5", 0, "; kernel s+p, 5 levels\n");
    assert_ne!(here.get("out.pbm"), here.get("default.pbm"));
}

#[test]
fn a_join_is_black_where_any_part_is() {
    let here = Folder::new();
    two_regions(&here);
    put(&here, "c.pbm", &drawn(&[".....", ".....", "#....", "#...."]));
    let answer = here.run("join a.pbm b.pbm out.pbm");
    assert_eq!((answer.status, answer.err.as_str()), (0, ""));
    assert_eq!(answer.said(), "out.pbm: 2 bitmaps joined, 5 by 4; 7 of 20 samples inside\n");
    // Raw, and what fills a row up is 0.
    assert_eq!(here.get("out.pbm"), b"P4\n5 4\n\xc0\xf0\x00\x08");
    assert_eq!(rows(&here, "out.pbm"), ["##...", "####.", ".....", "....#"]);
    here.ends("join a.pbm b.pbm c.pbm three.pbm", 0, "three.pbm: 3 bitmaps joined, 5 by 4; 9 of 20 samples inside\n");
    assert_eq!(rows(&here, "three.pbm"), ["##...", "####.", "#....", "#...#"]);
    here.ends("join c.pbm out.pbm other.pbm", 0, "");
    assert_eq!(here.get("other.pbm"), here.get("three.pbm"));
}

#[test]
fn a_join_with_itself_and_with_nothing_is_itself() {
    let here = Folder::new();
    for (seed, (width, height)) in (0..).zip(SIZES) {
        put(&here, "a.pbm", &scattered(seed, width, height, 3));
        put(&here, "none.pbm", &all(width, height, 0));
        for line in ["join a.pbm a.pbm out.pbm", "join a.pbm none.pbm out.pbm", "join none.pbm a.pbm a.pbm out.pbm"] {
            here.ends(line, 0, "joined");
            assert_eq!(here.get("out.pbm"), here.get("a.pbm"), "{width} by {height} {line}");
        }
    }
}

#[test]
fn rectangles_are_joined_in_both_forms_and_from_a_file() {
    let here = Folder::new();
    two_regions(&here);
    here.ends(
        "join a.pbm out.pbm --rect 1,1,2,2",
        0,
        "out.pbm: 1 bitmap and 1 rectangle joined, 5 by 4; 7 of 20 samples inside\n",
    );
    assert_eq!(rows(&here, "out.pbm"), ["##...", "###..", ".##..", "....."]);
    here.put("list", "# the new ones\n1x4+4+0\n\n0,3,1,1\n");
    here.ends("join --rects list a.pbm --rect 2x2+1+1 b.pbm out.pbm", 0, "2 bitmaps and 3 rectangles joined");
    assert_eq!(rows(&here, "out.pbm"), ["##..#", "#####", ".##.#", "#...#"]);
    // A list may be empty: nothing is added.
    here.put("list", "# none\n");
    here.ends("join a.pbm out.pbm --rects list", 0, "1 bitmap and 0 rectangles joined, 5 by 4; 4 of 20 samples inside");
    assert_eq!(here.get("out.pbm"), here.get("a.pbm"));
}

#[test]
fn what_a_mask_reports() {
    let here = Folder::new();
    put(&here, "in.pbm", &drawn(&["...#...."]));
    let answer = here.run("mask in.pbm out.pbm --kernel s --levels 1");
    let words =
        "out.pbm: mask of in.pbm, 8 by 1; 1 of 8 samples inside; 2 of 8 coefficients marked; kernel s, 1 level\n";
    assert_eq!((answer.status, answer.said().as_str()), (0, words));
    put(&here, "dot.pbm", &all(1, 1, 1));
    here.ends(
        "mask dot.pbm out.pbm",
        0,
        "1 by 1; 1 of 1 sample inside; 1 of 1 coefficient marked; kernel 5/3, 3 levels\n",
    );
    put(&here, "large.pbm", &all(1366, 3, 1));
    here.ends("mask large.pbm out.pbm", 0, "1,366 by 3; 4,098 of 4,098 samples inside; 4,098 of 4,098 coefficients");
    here.ends("join large.pbm large.pbm out.pbm", 0, "1,366 by 3; 4,098 of 4,098 samples inside\n");
}

#[test]
fn the_largest_size_is_taken_and_the_next_is_refused() {
    let here = Folder::new();
    for (width, height) in [(4096, 2), (1, 4096)] {
        put(&here, "in.pbm", &scattered(9, width, height, 200));
        here.ends("mask in.pbm out.pbm --levels 5", 0, "");
        here.ends("join in.pbm in.pbm out.pbm", 0, "");
        assert_eq!(here.get("out.pbm"), here.get("in.pbm"));
    }
    here.put("out.pbm", "old");
    for (width, height, size) in [(4097, 2, "4,097 by 2"), (1, 4097, "1 by 4,097")] {
        put(&here, "in.pbm", &all(width, height, 0));
        let words = format!(
            "in.pbm: refused 4: width or height is not 1 to 4,096 (it is {size}); 'pamcut' (netpbm) takes a part of \
             it\n"
        );
        for line in ["mask in.pbm out.pbm", "join in.pbm in.pbm out.pbm", "join in.pbm out.pbm --rect 0,0,1,1"] {
            here.ends(line, 3, &words);
        }
    }
    assert_eq!(here.get("out.pbm"), b"old");
}

/// 2 by 3 samples are as many as 3 by 2, and are no less refused.
#[test]
fn bitmaps_of_different_sizes_are_refused_by_their_names_and_sizes() {
    let here = Folder::new();
    put(&here, "a.pbm", &all(2, 3, 0));
    put(&here, "b.pbm", &all(3, 2, 1));
    put(&here, "c.pbm", &all(1366, 768, 1));
    here.put("out.pbm", "old");
    for (line, words) in [
        ("join a.pbm b.pbm out.pbm", "a.pbm: refused 5: it has 2 by 3 samples and b.pbm has 3 by 2, "),
        ("join b.pbm a.pbm out.pbm", "b.pbm: refused 5: it has 3 by 2 samples and a.pbm has 2 by 3, "),
        ("join a.pbm a.pbm c.pbm out.pbm", "a.pbm: refused 5: it has 2 by 3 samples and c.pbm has 1,366 by 768, "),
        ("join c.pbm a.pbm out.pbm --rect 0,0,1,1", "c.pbm: refused 5: it has 1,366 by 768 samples and a.pbm has "),
    ] {
        let answer = here.run(line);
        assert_eq!((answer.status, answer.out.len()), (3, 0), "{line}: {}", answer.err);
        assert!(answer.err.starts_with(&format!("dhiirqobaal: {words}")), "{}", answer.err);
        assert!(answer.err.contains("draw both at the size of the picture"), "{}", answer.err);
    }
    let answer = here.fed("join - a.pbm out.pbm", &here.get("b.pbm"));
    assert!(answer.err.contains("standard input: refused 5: it has 3 by 2 samples and a.pbm has 2 by 3"));
    // The first one's own size is refused before the sizes are compared.
    put(&here, "wide.pbm", &all(4097, 1, 1));
    here.ends("join wide.pbm a.pbm out.pbm", 3, "wide.pbm: refused 4: ");
    here.ends("join a.pbm wide.pbm out.pbm", 3, "a.pbm: refused 5: it has 2 by 3 samples and wide.pbm has 4,097 by 1");
    assert_eq!(here.get("out.pbm"), b"old");
}

#[test]
fn refusals_say_what_to_do() {
    let here = Folder::new();
    two_regions(&here);
    here.put("out.pbm", "old");
    let names = here.names();
    for (line, words) in [
        ("mask a.pbm out.pbm --kernel 4", "a.pbm: refused 1: the kernel is not 0 to 3 (it is 4); --kernel takes s,"),
        ("mask a.pbm out.pbm --levels 0", "refused 2: the levels J are not 1 to 5 (they are 0); --levels takes 1 to 5"),
        ("mask a.pbm out.pbm --kernel 9 --levels 9", "refused 1: "),
        ("mask b.pbm out.pbm --levels 18446744073709551615", "(they are 18446744073709551615)"),
        (
            "join a.pbm out.pbm --rect 0,0,1,1 --rect 1,0,5,1",
            "a.pbm: refused 8: a rectangle is empty or not wholly inside the picture (rectangle 2 of 2, 1,0,5,1: it \
             ends beyond the right edge of the picture, 5 by 4); a rectangle is x,y,w,h or WxH+X+Y",
        ),
        ("join a.pbm b.pbm out.pbm --rect 0,0,1,0", "rectangle 1 of 1, 0,0,1,0: it is empty, its height is 0"),
        (
            &format!("join a.pbm out.pbm{}", " --rect 0,0,1,1".repeat(33)),
            "a.pbm: refused 7: there are more than 32 rectangles (there are 33); one rectangle may go around several",
        ),
    ] {
        here.ends(line, 3, words);
    }
    here.ends(&format!("join a.pbm new.pbm{}", " --rect 4,3,1,1".repeat(32)), 0, "32 rectangles joined");
    assert_eq!(here.get("out.pbm"), b"old");
    assert_eq!(here.names().len(), names.len() + 1);
}

#[test]
fn what_is_no_bitmap_is_told_with_the_command_that_helps() {
    let here = Folder::new();
    two_regions(&here);
    here.put("in.pgm", noise_picture(5, 4));
    let picture = picture::parse(&here.get("in.pgm")).unwrap();
    here.put("in.png", picture::format(&picture, picture::Format::Png).unwrap());
    here.put("in.jpg", b"\xff\xd8\xff\xe0\0\x10JFIF");
    here.put("s", WORKED);
    here.put("text", "Hello");
    here.put("empty", "");
    here.put("cut", &here.get("a.pbm")[..9]);
    here.put("bad", "P1 2 2 0121");
    for (name, words) in [
        ("in.pgm", "in.pgm: a PGM picture, not a bitmap; PBM files (they begin with P4 or P1) are taken"),
        ("in.pgm", "'pgmtopbm -threshold IN > OUT.pbm' (netpbm) makes one of it, its dark half inside"),
        ("in.png", "in.png: a PNG picture, not a bitmap; "),
        ("in.png", "'pngtopnm -mix IN | ppmtopgm | pgmtopbm -threshold > OUT.pbm' (netpbm)"),
        ("in.jpg", "in.jpg: a JPEG picture, not a bitmap; "),
        ("s", "s: it seems to be a stream, not a bitmap; 'dhiirqobaal info IN' tells its rectangles"),
        ("text", "text: not a bitmap; PBM files (they begin with P4 or P1) are taken, in which black is inside\n"),
        ("empty", "empty: the file is empty; PBM files"),
        ("cut", "cut: the picture is cut: 2 of 4 bytes of samples are there; copy or make the file again\n"),
        ("bad", "bad: the sample in column 0, row 1 (counted from 0) is '2', not 0 or 1\n"),
        ("missing", "missing: no such file or directory\n"),
        (".", ".: is a directory\n"),
    ] {
        here.ends(&format!("mask {name} out.pbm"), 4, words);
        here.ends(&format!("join {name} a.pbm out.pbm"), 4, words);
        here.ends(&format!("join a.pbm b.pbm {name} out.pbm"), 4, words);
        here.ends(&format!("join {name} out.pbm --rect 0,0,1,1"), 4, words);
    }
    here.put("list", "0,0,1\n");
    here.ends("join a.pbm out.pbm --rects list", 4, "list: line 1: '0,0,1' is no rectangle");
    here.ends("join a.pbm out.pbm --rects missing", 4, "missing: no such file or directory");
    assert!(!here.path("out.pbm").exists());
}

/// The other way round, a bitmap where a picture or a stream is taken.
#[test]
fn a_bitmap_that_is_taken_for_something_else() {
    let here = Folder::new();
    two_regions(&here);
    put(&here, "large.pbm", &all(64, 64, 1));
    for line in ["encode a.pbm out", "compare b.pbm b.pbm"] {
        here.ends(
            line,
            4,
            ".pbm: a PBM bitmap, which 'dhiirqobaal mask' and 'dhiirqobaal join' take; 'pbmtopgm 1 1 IN",
        );
    }
    here.ends("info large.pbm", 3, "begins like a bitmap, which 'mask' and 'join' take");
}

#[test]
fn a_header_with_cr_lf() {
    let here = Folder::new();
    here.put("in.pbm", b"P4\r\n8 1\r\n\xff");
    here.ends("mask in.pbm out.pbm", 0, "in.pbm: the header ends with CR LF");
    here.ends("join in.pbm in.pbm out.pbm", 0, "in.pbm: the header ends with CR LF");
    assert_eq!(rows(&here, "out.pbm"), ["....#.#."]);
}

#[test]
fn a_name_that_promises_png_is_told() {
    let here = Folder::new();
    two_regions(&here);
    let note = "out.png: a PBM file, whatever its name says; 'pnmtopng IN > OUT.png' (netpbm) makes a PNG file of it";
    for line in ["mask a.pbm out.png", "join a.pbm b.pbm out.png"] {
        let answer = here.run(line);
        assert!(answer.status == 0 && answer.err.contains(note), "{line}: {}", answer.err);
        assert!(here.get("out.png").starts_with(b"P4\n5 4\n"));
        assert_eq!(here.run(&format!("{line} -q")).said(), "");
    }
    assert_eq!(here.run("mask a.pbm out").err, "");
}

#[test]
fn through_standard_input_and_output() {
    let here = Folder::new();
    two_regions(&here);
    here.ends("mask a.pbm mask.pbm", 0, "");
    here.ends("join a.pbm b.pbm ab.pbm", 0, "");
    let (a, b) = (here.get("a.pbm"), here.get("b.pbm"));
    let answer = here.fed("mask - -", &a);
    assert_eq!((answer.status, answer.out), (0, here.get("mask.pbm")));
    assert!(answer.err.starts_with("standard output: mask of standard input, 5 by 4; 4 of 20 "), "{}", answer.err);
    for (line, input) in [("join - b.pbm -", &a), ("join a.pbm - -", &b)] {
        let answer = here.fed(line, input);
        assert_eq!((answer.status, answer.out), (0, here.get("ab.pbm")), "{line}");
        assert_eq!(answer.err, "standard output: 2 bitmaps joined, 5 by 4; 7 of 20 samples inside\n");
    }
    let answer = here.fed("join a.pbm - --rects - -q", b"1,1,3,1\n4,3,1,1\n");
    assert_eq!((answer.status, answer.out, answer.err.as_str()), (0, here.get("ab.pbm"), ""));
    for line in ["join - - out.pbm", "join - b.pbm out.pbm --rects -", "join a.pbm - - -"] {
        here.ends(line, 2, "standard input ('-') can be one input alone");
    }
    assert!(!here.path("-").exists() && !here.path("out.pbm").exists());
}

#[test]
fn an_output_may_not_take_the_place_of_an_input() {
    let here = Folder::new();
    two_regions(&here);
    here.put("list", "0,0,1,1\n");
    fs::hard_link(here.path("a.pbm"), here.path("hard")).unwrap();
    symlink("a.pbm", here.path("soft")).unwrap();
    let (a, b) = (here.get("a.pbm"), here.get("b.pbm"));
    for output in ["a.pbm", "./a.pbm", "hard", "soft"] {
        here.ends(&format!("mask a.pbm {output}"), 2, &format!("a.pbm and {output} are the same file"));
        here.ends(&format!("join a.pbm b.pbm {output}"), 2, "are the same file");
        here.ends(&format!("join b.pbm a.pbm {output}"), 2, "are the same file");
        here.ends(&format!("join a.pbm {output} --rect 0,0,1,1"), 2, "are the same file");
    }
    here.ends("join a.pbm list --rects list", 2, "list and list are the same file");
    let mut command = here.command("sh");
    command.args(["-c", "\"$0\" join - b.pbm a.pbm < a.pbm", env!("CARGO_BIN_EXE_dhiirqobaal")]);
    assert_eq!(finish(command, b"").status, 2);
    assert_eq!((here.get("a.pbm"), here.get("b.pbm"), here.get("list")), (a, b, b"0,0,1,1\n".to_vec()));
}

/// Whoever forgets the output does not lose the last input, where one bitmap alone would be left to join.
#[test]
fn at_least_two_parts_are_joined() {
    let here = Folder::new();
    two_regions(&here);
    let b = here.get("b.pbm");
    for line in ["join a.pbm", "join a.pbm b.pbm", "join a.pbm --rect 0,0,1,1", "join a.pbm --rects list"] {
        here.ends(line, 2, "at least two parts are joined, two bitmaps or a bitmap and rectangles");
    }
    assert_eq!(here.get("b.pbm"), b);
    assert_eq!(here.names(), ["a.pbm", "b.pbm"]);
}
