//! A small picture first: the picture at a level, its size, what is promised of it, and a level that a stream does not
//! have.

use crate::{mended, noise_picture, told, two_rectangles, Folder, UNMARKED, WORKED};
use picture::Picture;
use serde_json::json;

/// The rectangles of `two_rectangles`: x, y, width and height.
const RECTANGLES: [[usize; 4]; 2] = [[3, 2, 9, 5], [24, 10, 7, 7]];

fn halved(side: usize) -> usize {
    side / 2 + side % 2
}

/// A side halved and rounded up, as many times as the level says.
fn side(side: usize, level: usize) -> usize {
    (0..level).fold(side, |side, _| halved(side))
}

pub fn picture(here: &Folder, name: &str) -> Picture {
    picture::parse(&here.get(name)).unwrap()
}

/// A stream's picture at a level, which is shown with a status.
fn shown(here: &Folder, stream: &str, level: usize, status: i32) -> Picture {
    here.ends(&format!("show {stream} level.pgm --level {level}"), status, "level.pgm: shown from ");
    picture(here, "level.pgm")
}

/// Whether the block of samples that a place of the picture at a level stands for touches a rectangle.
fn belongs(x: usize, y: usize, level: usize) -> bool {
    let block = 1 << level;
    let touches = |place: usize, from: usize, length: usize| {
        (place * block..(place + 1) * block).any(|sample| (from..from + length).contains(&sample))
    };
    RECTANGLES.iter().any(|&[left, upper, width, height]| touches(x, left, width) && touches(y, upper, height))
}

#[test]
fn each_side_is_halved_and_rounded_up() {
    let here = Folder::new();
    for (width, height) in [(1, 1), (2, 1), (3, 2), (31, 17), (64, 32), (43, 1), (1, 4095), (1366, 3)] {
        here.put("in.pgm", noise_picture(width, height));
        for levels in [1, 5] {
            here.ends(&format!("encode in.pgm s --levels {levels} --rect 0,0,1,1"), 0, "");
            for level in 0..=levels {
                let found = shown(&here, "s", level, 0);
                assert_eq!((found.width, found.height), (side(width, level), side(height, level)));
            }
        }
    }
}

#[test]
fn level_0_is_the_full_picture() {
    let here = Folder::new();
    for kernel in 0..4 {
        let (mark, _) = two_rectangles(&here, &format!("--kernel {kernel} --levels 4"));
        here.put("part", &here.get("all.stream")[..mark - 9]);
        for (name, status) in [("all.stream", 0), ("part", 1)] {
            let (without, with) =
                (here.run(&format!("show {name} out.pgm")), here.run(&format!("show {name} level.pgm --level 0")));
            assert_eq!((without.status, with.status), (status, status));
            assert_eq!(with.said(), without.said().replace("out.pgm", "level.pgm"));
            assert_eq!(here.get("level.pgm"), here.get("out.pgm"));
        }
        here.ends("compare in.pgm out.pgm", 1, "");
        here.ends("show all.stream out.pgm --level=0", 0, "");
        here.ends("compare in.pgm out.pgm", 0, "no difference in 527 samples");
    }
}

/// Pairs of a line, each as its mean rounded down; the last number of an odd line stays.
fn means(line: &[u16]) -> Vec<u16> {
    line.chunks(2).map(|pair| pair.iter().sum::<u16>() / pair.len() as u16).collect()
}

/// One level of the lows of kernel 0: the rows, then the columns.
fn lows(from: &Picture) -> Picture {
    let rows: Vec<Vec<u16>> = from.samples.chunks(from.width).map(means).collect();
    let (width, height) = (halved(from.width), halved(from.height));
    let columns: Vec<Vec<u16>> =
        (0..width).map(|x| means(&rows.iter().map(|row| row[x]).collect::<Vec<_>>())).collect();
    let samples = (0..height).flat_map(|y| columns.iter().map(move |column| column[y])).collect();
    Picture { width, height, top: from.top, samples }
}

/// Kernels 0, 1 and 2 have the same lows.
#[test]
fn a_whole_stream_shows_the_lows_of_the_picture() {
    let here = Folder::new();
    for kernel in ["s", "s+p", "tt"] {
        two_rectangles(&here, &format!("--kernel {kernel} --levels 5"));
        let mut expected = picture(&here, "in.pgm");
        for level in 0..=5 {
            assert_eq!(shown(&here, "all.stream", level, 0), expected, "{kernel} {level}");
            expected = lows(&expected);
        }
    }
}

/// The worked stream of docs/FORMAT.md, whose plane is 6 1 / 4 3: its lowest area is 6.
#[test]
fn the_lowest_area_is_shown_as_it_is_stored() {
    let here = Folder::new();
    here.put("s", WORKED);
    let answer = here.run("show s out.pgm --level 1");
    assert_eq!(here.get("out.pgm"), b"P5\n1 1\n255\n\x06");
    let words = "out.pgm: shown from s; level 1, 1 by 1; all 24 bytes arrived; every bit of the rectangle arrived: \
                 it is what the whole stream shows at this level, unless the link changed a bit\n";
    assert_eq!((answer.status, answer.said().as_str()), (0, words));
}

#[test]
fn a_cut_shows_the_rectangles_of_every_level_as_the_whole_stream_does() {
    let here = Folder::new();
    for kernel in 0..4 {
        let (mark, total) = two_rectangles(&here, &format!("--kernel {kernel} --levels 5"));
        here.ends("cut all.stream marked --mark", 0, "");
        here.put("broken", &here.get("all.stream")[..(mark + total) / 2]);
        for level in 0..=5 {
            let whole = shown(&here, "all.stream", level, 0);
            for name in ["marked", "broken"] {
                let cut = shown(&here, name, level, 0);
                assert_eq!((cut.width, cut.height), (whole.width, whole.height));
                assert!(level > 0 || cut.samples != whole.samples);
                for (i, samples) in cut.samples.iter().zip(&whole.samples).enumerate() {
                    let (x, y) = (i % whole.width, i / whole.width);
                    assert!(samples.0 == samples.1 || !belongs(x, y, level), "{kernel} {name} {level}: {x} {y}");
                }
            }
        }
    }
}

#[test]
fn a_level_above_the_streams_own_is_refused() {
    let here = Folder::new();
    two_rectangles(&here, "");
    here.put("old.pgm", "old");
    let names = here.names();
    for level in ["4", "5", "64", "18446744073709551615"] {
        let words = format!(
            "dhiirqobaal: all.stream: refused 17: the level r is above the levels J (r is {level}); its J is 3: \
             --level takes 0 to 3\n"
        );
        for line in ["show all.stream out.pgm", "show all.stream old.pgm --frames", "show all.stream - --format png"] {
            let answer = here.run(&format!("{line} --level {level}"));
            assert_eq!((answer.status, answer.out.len(), &answer.err), (3, 0, &words), "{line}");
        }
    }
    assert_eq!(here.get("old.pgm"), b"old");
    assert_eq!(here.names(), names);
}

/// The level is tested before the body is read, and behind the header.
#[test]
fn the_refusals_that_come_before_and_behind_a_level() {
    let here = Folder::new();
    here.put("longer", mended([&WORKED[..], &[0]].concat()));
    here.ends("show longer out --level 2", 3, "longer: refused 17: ");
    here.ends("show longer out --level 1", 3, "longer: refused 16: behind the complete body there is a further byte");
    let mut bad = WORKED.to_vec();
    bad[6] = 6;
    here.put("bad", bad);
    here.ends("show bad out --level 7", 3, "bad: refused 2: the levels J are not 1 to 5 (they are 6)");
    here.ends("show bad out --level 1", 3, "bad: refused 2: ");
    here.put("short", &WORKED[..20]);
    here.ends("show short out --level 9", 3, "short: refused 12: ");
    assert!(!here.path("out").exists());
}

#[test]
fn what_a_broken_call_left_is_shown_at_a_level() {
    let here = Folder::new();
    let (mark, total) = two_rectangles(&here, "");
    for (length, status, words) in [
        (mark, 0, "every bit of the 2 rectangles arrived: they are what the whole stream shows at this level, unless"),
        (mark - 1, 1, "not every bit of the 2 rectangles arrived: they are perhaps not what the whole stream shows"),
        (14 + 8 * 2, 1, "not every bit of the 2 rectangles arrived: they are perhaps not what"),
    ] {
        here.put("part", &here.get("all.stream")[..length]);
        let words = format!("shown from part; level 2, 8 by 5; {length} of {total} bytes arrived; {words}");
        here.ends("show part out.pgm --level 2", status, &words);
        here.put("part", mended(here.get("part")));
        assert_eq!(shown(&here, "part", 2, status), picture(&here, "out.pgm"));
    }
}

/// A sample of a small picture is none of those that were captured, so that nothing is called exact there.
#[test]
fn a_small_picture_is_not_called_exact() {
    let here = Folder::new();
    two_rectangles(&here, "");
    here.put("worked", WORKED);
    here.put("unmarked", UNMARKED);
    here.put("part", &WORKED[..23]);
    for (line, status) in [
        ("show all.stream out.pgm --level 3", 0),
        ("show worked out.pgm --level 1", 0),
        ("show unmarked out.pgm --level 1", 0),
        ("show part out.pgm --level 1 --frames", 1),
    ] {
        let answer = here.run(line);
        assert_eq!(answer.status, status, "{line}");
        assert!(!answer.said().contains("exact"), "{line}: {}", answer.said());
    }
    here.ends("show unmarked out.pgm --level 1", 0, "level 1, 1 by 1; all 16 bytes arrived; no rectangle is marked");
    here.ends("show --help", 0, "samples as captured are in\nthe full picture alone");
}

/// A dark picture, in which frames are bright: rows of the picture at a level, with # for a bright sample.
fn bright(here: &Folder, options: &str) -> Vec<String> {
    here.ends(&format!("show s framed.pgm --frames {options}"), 0, "");
    let framed = picture(here, "framed.pgm");
    assert!(framed.samples.iter().all(|&s| s == 255 || s == 40), "{options}");
    let row = |row: &[u16]| row.iter().map(|&s| if s == 255 { '#' } else { '.' }).collect();
    framed.samples.chunks(framed.width).map(row).collect()
}

/// The blocks of level 1 that touch the first rectangle are in columns 2 to 3 of row 2; the second one's are the last
/// column, which stands for a single column of samples, of rows 0 to 1.
#[test]
fn frames_go_around_the_blocks_that_touch_a_rectangle() {
    let here = Folder::new();
    here.put("in.pgm", [&b"P5 13 9 255\n"[..], &[40; 13 * 9]].concat());
    here.ends("encode in.pgm s --rect 5,4,3,2 --rect 12,1,1,2", 0, "");
    assert_eq!(bright(&here, "--level 1"), [".....#.", ".#####.", ".#..###", ".####..", "......."]);
    // Of four by three places the one in column 1 and row 1, and the one in column 3 and row 0.
    assert_eq!(bright(&here, "--level 2"), ["###.", "#.##", "###."]);
    // Of two by two places the upper left one, and the one beside it.
    assert_eq!(bright(&here, "--level 3"), ["..", "##"]);
}

#[test]
fn no_frame_at_a_level_below_the_region_mark() {
    let here = Folder::new();
    let (mark, _) = two_rectangles(&here, "");
    here.put("part", &here.get("all.stream")[..mark - 1]);
    let plain = shown(&here, "part", 1, 1);
    here.ends("show part framed.pgm --frames --level 1", 1, "part: not every marked bit arrived, so that no frame");
    assert_eq!(picture(&here, "framed.pgm"), plain);
    here.put("unmarked", UNMARKED);
    here.ends("show unmarked out.pgm --frames --level 1", 0, "unmarked: no rectangle is marked, so that no frame");
}

#[test]
fn info_tells_the_sizes() {
    let here = Folder::new();
    here.put("in.pgm", noise_picture(1366, 3));
    here.ends("encode in.pgm s", 0, "");
    here.ends("info s", 0, "\nlevels J      3\nlevel sizes   0: 1,366 by 3; 1: 683 by 2; 2: 342 by 1; 3: 171 by 1\n");
    assert_eq!(
        told(&here, "s")["sizes"],
        json!([
            {"level": 0, "width": 1366, "height": 3},
            {"level": 1, "width": 683, "height": 2},
            {"level": 2, "width": 342, "height": 1},
            {"level": 3, "width": 171, "height": 1},
        ])
    );
    here.put("worked", WORKED);
    here.ends("info worked", 0, "\nlevels J      1\nlevel sizes   0: 2 by 2; 1: 1 by 1\n");
}

/// What info tells is what show makes.
#[test]
fn the_sizes_that_info_tells_are_those_of_the_pictures() {
    let here = Folder::new();
    two_rectangles(&here, "--levels 5");
    let told = told(&here, "all.stream");
    let sizes = told["sizes"].as_array().unwrap();
    assert_eq!((sizes.len(), &told["levels"]), (6, &json!(5)));
    for size in sizes {
        let found = shown(&here, "all.stream", size["level"].as_u64().unwrap() as usize, 0);
        assert_eq!((&size["width"], &size["height"]), (&json!(found.width), &json!(found.height)));
    }
}

/// The size is told before anything is said of the rectangles.
#[test]
fn compare_says_that_the_rectangles_of_a_stream_are_those_of_full_pictures() {
    let here = Folder::new();
    two_rectangles(&here, "");
    let small = shown(&here, "all.stream", 1, 0);
    here.ends("show all.stream small.pgm --level 1", 0, "");
    let answer = here.run("compare small.pgm small.pgm --stream all.stream");
    let words = format!(
        "where the pictures have {} by {}, the size of level 1: --stream compares full pictures, in small ones give --rect\n",
        small.width, small.height
    );
    assert_eq!((answer.status, answer.out.len()), (4, 0));
    assert!(answer.err.ends_with(&words), "{}", answer.err);
}

#[test]
fn a_level_that_is_no_number_is_told_with_what_is_taken() {
    let here = Folder::new();
    here.put("s", WORKED);
    for level in ["-1", "1e3", "18446744073709551616"] {
        let answer = here.run(&format!("show s out --level {level}"));
        assert_eq!(answer.status, 2, "{level}");
        assert!(answer.err.contains("it is not a whole number from 0 to 18446744073709551615"), "{}", answer.err);
    }
}

#[test]
fn of_several_streams_those_that_have_the_level_are_shown() {
    let here = Folder::new();
    here.put("in.pgm", noise_picture(31, 17));
    for levels in 1..=3 {
        here.ends(&format!("encode in.pgm {levels}.stream --levels {levels} --rect 0,0,9,9"), 0, "");
    }
    std::fs::create_dir(here.path("out")).unwrap();
    let answer = here.run("show --into out 3.stream 1.stream 2.stream --level 2");
    assert_eq!(answer.status, 3);
    let words = "dhiirqobaal: 1.stream: refused 17: the level r is above the levels J (r is 2); its J is 1: \
                 --level takes 0 to 1\n";
    assert_eq!(answer.err, words);
    assert_eq!(answer.said().matches("; level 2, 8 by 5; ").count(), 2, "{}", answer.said());
    for (name, there) in [("out/1.pgm", false), ("out/2.pgm", true), ("out/3.pgm", true)] {
        assert_eq!(here.path(name).exists(), there, "{name}");
    }
    here.ends("show --into out 3.stream 1.stream 2.stream --level 1", 0, "; level 1, 16 by 9; ");
}

#[test]
fn through_standard_input_and_output_in_every_format() {
    let here = Folder::new();
    two_rectangles(&here, "");
    let expected = shown(&here, "all.stream", 2, 0);
    for options in ["", "--format plain", "--format png"] {
        let answer = here.fed(&format!("show - - --level 2 {options}"), &here.get("all.stream"));
        assert_eq!((answer.status, picture::parse(&answer.out)), (0, Ok(expected.clone())));
        assert!(answer.err.contains("standard output: shown from standard input; level 2, 8 by 5; all"));
    }
    let answer = here.run("show -q all.stream out.png --level 2");
    assert_eq!((answer.status, answer.said().as_str()), (0, ""));
    assert_eq!(picture(&here, "out.png"), expected);
}
