//! How bright rectangles and regions are: number, sum, quotient and remainder as a count over the picture gives them,
//! whether they are exact, and lines that a script takes apart.

use crate::bitmaps::{all, put, scattered};
use crate::levels::picture;
use crate::{finish, mended, noise_picture, two_rectangles, Answer, Folder, UNMARKED, WORKED};
use picture::{Bitmap, Format, Picture};
use std::os::unix::fs::symlink;

/// The rectangles of `two_rectangles`: x, y, width and height.
const RECTANGLES: [[usize; 4]; 2] = [[3, 2, 9, 5], [24, 10, 7, 7]];

/// A line, taken apart.
#[derive(Clone, Debug, PartialEq)]
struct Line {
    /// Number, sum, quotient and remainder.
    figures: [u64; 4],
    exact: String,
    place: String,
}

/// The lines that were printed, as a script takes them apart: at blanks, and each field at its first equals sign.
fn lines(answer: &Answer) -> Vec<Line> {
    let text = String::from_utf8(answer.out.clone()).unwrap();
    assert!(text.is_empty() || text.ends_with('\n'), "{text}");
    text.lines().map(line).collect()
}

fn line(text: &str) -> Line {
    let fields: Vec<&str> = text.splitn(6, ' ').collect();
    let (names, values): (Vec<&str>, Vec<&str>) = fields.iter().map(|field| field.split_once('=').unwrap()).unzip();
    assert_eq!(names[..5], ["number", "sum", "quotient", "remainder", "exact"], "{text}");
    assert!(names[5] == "rect" || names[5] == "region", "{text}");
    let figures = std::array::from_fn(|i| values[i].parse().unwrap());
    Line { figures, exact: values[4].to_string(), place: fields[5].to_string() }
}

/// The figures of the samples for which a region says yes, counted one by one.
fn counted(picture: &Picture, region: impl Fn(usize, usize) -> bool) -> [u64; 4] {
    let (mut number, mut sum) = (0, 0);
    for y in 0..picture.height {
        for x in 0..picture.width {
            if region(x, y) {
                number += 1;
                sum += u64::from(picture.samples[y * picture.width + x]);
            }
        }
    }
    [number, sum, sum / number, sum % number]
}

fn in_rectangle(picture: &Picture, [left, upper, width, height]: [usize; 4]) -> [u64; 4] {
    counted(picture, |x, y| (left..left + width).contains(&x) && (upper..upper + height).contains(&y))
}

fn in_bitmap(picture: &Picture, region: &Bitmap) -> [u64; 4] {
    counted(picture, |x, y| region.samples[y * region.width + x] == 1)
}

/// The line of a rectangle.
fn expected(picture: &Picture, rectangle: [usize; 4], exact: &str) -> Line {
    let place = format!("rect={}", rectangle.map(|number| number.to_string()).join(","));
    Line { figures: in_rectangle(picture, rectangle), exact: exact.to_string(), place }
}

/// The line of a bitmap's region.
fn of_region(name: &str, figures: [u64; 4], exact: &str) -> Line {
    Line { figures, exact: exact.to_string(), place: format!("region={name}") }
}

/// Runs a command line that ends with a status, and gives its lines and what it says beside them.
fn measured(here: &Folder, line: &str, status: i32) -> (Vec<Line>, String) {
    let answer = here.run(line);
    assert_eq!(answer.status, status, "{line}: {}", answer.said());
    (lines(&answer), answer.err)
}

/// Runs a command line that prints no line, and holds it to its status and to the words.
fn nothing(here: &Folder, line: &str, status: i32, words: &str) {
    let answer = here.run(line);
    assert_eq!((answer.status, answer.out.len()), (status, 0), "{line}: {}", answer.said());
    assert!(answer.err.contains(words), "{line}: {}", answer.err);
}

#[test]
fn a_line_for_each_rectangle_of_the_stream_in_their_order() {
    let here = Folder::new();
    for kernel in 0..4 {
        two_rectangles(&here, &format!("--kernel {kernel} --levels 5"));
        let captured = picture(&here, "in.pgm");
        let lines = RECTANGLES.map(|rectangle| expected(&captured, rectangle, "yes"));
        assert_eq!(measured(&here, "brightness all.stream", 0), (lines.to_vec(), String::new()));
    }
    // The worked stream of docs/FORMAT.md, whose picture is 10 7 / 4 4.
    here.put("s", WORKED);
    let answer = here.run("brightness s");
    assert_eq!(
        (answer.status, answer.said().as_str()),
        (0, "number=1 sum=10 quotient=10 remainder=0 exact=yes rect=0,0,1,1\n")
    );
    let answer = here.run("brightness s --rect 0,0,2,2");
    assert_eq!(
        (answer.status, answer.said().as_str()),
        (0, "number=4 sum=25 quotient=6 remainder=1 exact=yes rect=0,0,2,2\n")
    );
}

#[test]
fn from_the_region_mark_on_the_lines_are_those_of_the_whole_stream() {
    let here = Folder::new();
    for kernel in 0..4 {
        let (mark, total) = two_rectangles(&here, &format!("--kernel {kernel} --levels 5"));
        let whole = here.run("brightness all.stream");
        for length in [mark, mark + 1, (mark + total) / 2, total - 1, total] {
            here.ends(&format!("cut all.stream cut --length {length}"), 0, "");
            here.put("broken", &here.get("all.stream")[..length]);
            for name in ["cut", "broken"] {
                let answer = here.run(&format!("brightness {name}"));
                assert_eq!((answer.status, &answer.out, answer.err.as_str()), (0, &whole.out, ""), "{name} {length}");
            }
        }
    }
}

#[test]
fn below_the_region_mark_the_lines_are_those_of_what_is_shown() {
    let here = Folder::new();
    let (mark, total) = two_rectangles(&here, "");
    for length in [14 + 8 * 2, 31, mark - 1] {
        here.put("broken", &here.get("all.stream")[..length]);
        here.put("mended", mended(here.get("broken")));
        here.ends("show broken shown.pgm", 1, "");
        let shown = picture(&here, "shown.pgm");
        let lines = RECTANGLES.map(|rectangle| expected(&shown, rectangle, "no"));
        for (name, arrived) in [("broken", format!("{length} of {total}")), ("mended", format!("all {length}"))] {
            let note = format!(
                "dhiirqobaal: {name}: {arrived} bytes arrived; not every bit of the 2 rectangles arrived: 2 of 2 lines \
                 are not exact\n"
            );
            let (found, said) = measured(&here, &format!("brightness {name}"), 1);
            assert_eq!((found.as_slice(), said), (&lines[..], note));
        }
    }
}

/// In a cut to the region mark: inside the rectangles, over their edge and far from them.
#[test]
fn only_what_lies_in_the_rectangles_of_a_cut_is_exact() {
    let here = Folder::new();
    two_rectangles(&here, "");
    here.ends("cut all.stream cut --mark", 0, "");
    here.ends("show cut shown.pgm", 0, "");
    let (shown, captured) = (picture(&here, "shown.pgm"), picture(&here, "in.pgm"));
    let places = [[4, 3, 2, 2], [24, 10, 7, 7], [24, 9, 7, 7], [0, 0, 1, 1], [2, 2, 9, 5]];
    let options: String = places.iter().map(|&place| format!(" --{}", expected(&shown, place, "").place)).collect();
    let lines: Vec<Line> = places
        .iter()
        .zip(["yes", "yes", "no", "no", "no"])
        .map(|(&place, exact)| expected(&shown, place, exact))
        .collect();
    let (found, said) = measured(&here, &format!("brightness cut{options}"), 1);
    assert_eq!(found, lines);
    assert!(said.ends_with("; not every bit outside the 2 rectangles arrived: 3 of 5 lines are not exact\n"), "{said}");
    assert_ne!(lines[2].figures, in_rectangle(&captured, places[2]));
    let (found, said) = measured(&here, "brightness cut --rect 4,3,2,2 --rect 0,0,1,1", 1);
    assert_eq!((found.len(), said.ends_with(" 1 of 2 lines is not exact\n")), (2, true), "{said}");
    // Of the whole stream every one is.
    let lines: Vec<Line> = places.iter().map(|&place| expected(&captured, place, "yes")).collect();
    assert_eq!(measured(&here, &format!("brightness all.stream{options}"), 0), (lines, String::new()));
}

/// Two rectangles that touch: what lies in neither alone, and in both together, is exact.
#[test]
fn what_lies_in_the_rectangles_together_is_exact() {
    let here = Folder::new();
    here.put("in.pgm", noise_picture(31, 17));
    here.ends("encode in.pgm s --rect 3,2,9,5 --rect 12,3,9,5", 0, "");
    here.ends("cut s cut --mark", 0, "");
    let captured = picture(&here, "in.pgm");
    for (place, exact, status) in [([5, 3, 12, 4], "yes", 0), ([5, 2, 12, 4], "no", 1)] {
        let rectangle = expected(&captured, place, "").place;
        let (found, _) = measured(&here, &format!("brightness cut --{rectangle}"), status);
        assert_eq!((found.len(), found[0].exact.as_str()), (1, exact));
        assert!(exact == "no" || found[0].figures == in_rectangle(&captured, place));
    }
}

#[test]
fn a_stream_without_a_rectangle() {
    let here = Folder::new();
    here.put("whole", UNMARKED);
    here.put("part", &UNMARKED[..15]);
    for name in ["whole", "part"] {
        let words = format!("{name}: no rectangle is marked in this stream: give --rect, --rects or --region\n");
        nothing(&here, &format!("brightness {name}"), 2, &words);
    }
    let (found, said) = measured(&here, "brightness whole --rect 0,0,2,1", 0);
    assert_eq!((found[0].figures, found[0].exact.as_str(), said.as_str()), ([2, 17, 8, 1], "yes", ""));
    // 8 8 / 4 4 is shown of what arrived.
    let (found, said) = measured(&here, "brightness part --rect 0,0,2,1", 1);
    assert_eq!((found[0].figures, found[0].exact.as_str()), ([2, 16, 8, 0], "no"));
    let note =
        "part: 15 of 16 bytes arrived; no rectangle is marked; not every bit of the picture arrived: 1 of 1 line \
                is not exact\n";
    assert_eq!(said, format!("dhiirqobaal: {note}"));
}

#[test]
fn rectangles_in_both_forms_and_from_a_file_in_their_order() {
    let here = Folder::new();
    two_rectangles(&here, "");
    here.put("list", "# lamps\n9x5+3+2   # the first\n\n24,10,7,7\n");
    let captured = picture(&here, "in.pgm");
    let places = [[30, 16, 1, 1], [0, 0, 31, 17], [3, 2, 9, 5], [24, 10, 7, 7]];
    for (name, exact) in [("all.stream", "yes"), ("in.pgm", "unknown")] {
        let lines = places.map(|place| expected(&captured, place, exact)).to_vec();
        let line = format!("brightness --rects list {name} --rect 30,16,1,1 --rect 31x17+0+0");
        assert_eq!(measured(&here, &line, 0), (lines, String::new()));
    }
    // One twice is two lines.
    let (found, _) = measured(&here, "brightness all.stream --rect 3,2,9,5 --rect 3,2,9,5", 0);
    assert_eq!(found[0], found[1]);
    let many = " --rect 3,2,9,5".repeat(32);
    assert_eq!(measured(&here, &format!("brightness all.stream{many}"), 0).0.len(), 32);
}

#[test]
fn a_bitmap_is_one_line() {
    let here = Folder::new();
    let (mark, _) = two_rectangles(&here, "");
    here.put("broken", &here.get("all.stream")[..mark]);
    here.ends("show broken shown.pgm", 0, "");
    let (captured, shown) = (picture(&here, "in.pgm"), picture(&here, "shown.pgm"));
    for seed in 0..6 {
        let region = scattered(seed, 31, 17, 7);
        put(&here, "a.pbm", &region);
        for (name, seen, exact, status) in
            [("all.stream", &captured, "yes", 0), ("in.pgm", &captured, "unknown", 0), ("broken", &shown, "no", 1)]
        {
            let (found, _) = measured(&here, &format!("brightness {name} --region a.pbm"), status);
            assert_eq!(found, [of_region("a.pbm", in_bitmap(seen, &region), exact)]);
        }
    }
}

/// A round lamp in the second rectangle, drawn by hand, and the same with one sample more outside.
#[test]
fn a_drawn_lamp_inside_a_rectangle_is_exact_in_a_cut() {
    let here = Folder::new();
    let (mark, _) = two_rectangles(&here, "");
    here.put("broken", &here.get("all.stream")[..mark]);
    let captured = picture(&here, "in.pgm");
    let lamp = |x: usize, y: usize| x.abs_diff(27).pow(2) + y.abs_diff(13).pow(2) <= 9;
    let digits: String = (0..31 * 17).map(|i| if lamp(i % 31, i / 31) { '1' } else { '0' }).collect();
    here.put("lamp.pbm", format!("P1\n# a lamp\n31 17\n{digits}\n"));
    let (found, said) = measured(&here, "brightness broken --region lamp.pbm", 0);
    assert_eq!(found, [of_region("lamp.pbm", counted(&captured, lamp), "yes")]);
    assert_eq!((found[0].figures[0], said.as_str()), (29, ""));
    here.put("lamp.pbm", format!("P1\n# a lamp\n31 17\n1{}\n", &digits[1..]));
    let (found, said) = measured(&here, "brightness broken --region lamp.pbm", 1);
    assert_eq!((found[0].figures[0], found[0].exact.as_str()), (30, "no"));
    assert!(said.ends_with("; not every bit outside the 2 rectangles arrived: 1 of 1 line is not exact\n"), "{said}");
    assert_eq!(measured(&here, "brightness all.stream --region lamp.pbm", 0).0[0].exact, "yes");
}

/// What the customer asked for: two logs of one lamp add up.
#[test]
fn numbers_and_sums_of_what_shares_no_sample_add_up_to_those_of_the_join() {
    let here = Folder::new();
    two_rectangles(&here, "");
    put(&here, "none.pbm", &all(31, 17, 0));
    here.ends("join none.pbm a.pbm --rect 3,2,9,5", 0, "");
    here.ends("join none.pbm b.pbm --rect 24,10,7,7", 0, "");
    here.ends("join a.pbm b.pbm ab.pbm", 0, "94 of 527 samples inside");
    for name in ["all.stream", "in.pgm"] {
        let one =
            |region: &str| measured(&here, &format!("brightness {name} --region {region}.pbm"), 0).0.remove(0).figures;
        let (a, b, ab) = (one("a"), one("b"), one("ab"));
        let (number, sum) = (a[0] + b[0], a[1] + b[1]);
        assert_eq!(ab, [number, sum, sum / number, sum % number]);
        let (found, _) = measured(&here, &format!("brightness {name} --rect 3,2,9,5 --rect 24,10,7,7"), 0);
        assert_eq!([found[0].figures, found[1].figures], [a, b]);
    }
    // The whole picture in strips.
    let strips: String = (0..17).map(|y| format!(" --rect 0,{y},31,1")).collect();
    let (found, _) = measured(&here, &format!("brightness in.pgm{strips}"), 0);
    let (number, sum) = found.iter().fold((0, 0), |(n, s), line| (n + line.figures[0], s + line.figures[1]));
    let (whole, _) = measured(&here, "brightness in.pgm --rect 0,0,31,17", 0);
    assert_eq!(whole[0].figures, [number, sum, sum / number, sum % number]);
}

#[test]
fn quotient_times_number_plus_remainder_is_the_sum() {
    let here = Folder::new();
    for (width, height) in [(1, 1), (2, 1), (5, 4), (13, 7), (64, 32), (4096, 1), (1, 4095)] {
        here.put("in.pgm", noise_picture(width, height));
        let captured = picture(&here, "in.pgm");
        for seed in 0..3 {
            let mut region = scattered(seed, width, height, 3);
            region.samples[0] = 1;
            put(&here, "a.pbm", &region);
            let (found, _) = measured(&here, "brightness in.pgm --region a.pbm", 0);
            let [number, sum, quotient, remainder] = found[0].figures;
            assert_eq!(found[0].figures, in_bitmap(&captured, &region));
            assert!(remainder < number && quotient * number + remainder == sum, "{:?}", found[0]);
        }
    }
}

/// No depth is given: samples of 16 bits are taken, and PNG files as PGM files.
#[test]
fn pictures_of_any_format_and_depth() {
    let here = Folder::new();
    for top in [1, 200, 1023, 65535] {
        let samples = (0..31 * 17).map(|i| (i * i * 7919 % (u32::from(top) + 1)) as u16).collect();
        let made = Picture { width: 31, height: 17, top, samples };
        for format in [Format::Pgm, Format::PlainPgm, Format::Png] {
            // The name says nothing.
            here.put("picture.stream", picture::format(&made, format).unwrap());
            let (found, said) = measured(&here, "brightness picture.stream --rect 3,2,9,5", 0);
            assert_eq!((found, said), (vec![expected(&made, RECTANGLES[0], "unknown")], String::new()));
        }
    }
}

#[test]
fn the_largest_picture_and_the_next() {
    let here = Folder::new();
    here.put("white.pgm", [&b"P5 4096 4096 65535\n"[..], &vec![255; 2 * 4096 * 4096]].concat());
    let (found, _) = measured(&here, "brightness white.pgm --rect 0,0,4096,4096", 0);
    assert_eq!(found[0].figures, [16_777_216, 1_099_494_850_560, 65535, 0]);
    here.put("wide.pgm", noise_picture(4097, 1));
    put(&here, "wide.pbm", &all(4097, 1, 1));
    let words =
        "wide.pgm: refused 4: width or height is not 1 to 4,096 (it is 4,097 by 1); 'pamcut' (netpbm) takes a part";
    nothing(&here, "brightness wide.pgm --rect 0,0,1,1", 3, words);
    nothing(&here, "brightness wide.pgm --region wide.pbm", 3, words);
}

/// The good rectangles in front of a bad one leave no line either.
#[test]
fn rectangles_that_are_refused_leave_no_line() {
    let here = Folder::new();
    two_rectangles(&here, "");
    let good = "--rect 3,2,9,5";
    for name in ["all.stream", "in.pgm"] {
        for (options, words) in [
            (
                format!("{good} --rect 24,10,8,7 {good}"),
                "8: a rectangle is empty or not wholly inside the picture (rectangle 2 of 3, 24,10,8,7: it ends beyond \
                 the right edge of the picture, 31 by 17); a rectangle is x,y,w,h or WxH+X+Y",
            ),
            (
                format!("{good} --rect 0,0,0,1"),
                "8: a rectangle is empty or not wholly inside the picture (rectangle 2 of 2, 0,0,0,1: it is empty, its \
                 width is 0)",
            ),
            (
                good.to_string() + &" --rect 0,0,1,1".repeat(32),
                "7: there are more than 32 rectangles (there are 33); one rectangle may go around several of them\n",
            ),
        ] {
            let words = format!("dhiirqobaal: {name}: refused {words}");
            nothing(&here, &format!("brightness {name} {options}"), 3, &words);
        }
    }
}

#[test]
fn bitmaps_that_are_refused_leave_no_line() {
    let here = Folder::new();
    two_rectangles(&here, "");
    put(&here, "none.pbm", &all(31, 17, 0));
    put(&here, "turned.pbm", &all(17, 31, 1));
    put(&here, "small.pbm", &all(2, 2, 0));
    for name in ["all.stream", "in.pgm"] {
        for (bitmap, words) in [
            (
                "none.pbm",
                "19: the region is without a sample (no sample of none.pbm is black); draw black what should be \
                 measured\n",
            ),
            (
                "turned.pbm",
                "5: it has 31 by 17 samples and turned.pbm has 17 by 31, but a region has the size of its picture; \
                 draw it at that size, or fit it: 'pamcut' cuts samples off, 'pnmpad -white' adds some outside \
                 (netpbm)\n",
            ),
            // The size is tested before the samples.
            ("small.pbm", "5: it has 31 by 17 samples and small.pbm has 2 by 2, "),
        ] {
            let words = format!("dhiirqobaal: {name}: refused {words}");
            nothing(&here, &format!("brightness {name} --region {bitmap}"), 3, &words);
        }
    }
}

/// Files of no use in the place of the stream or the picture.
#[test]
fn files_that_are_neither_a_stream_nor_a_picture() {
    let here = Folder::new();
    put(&here, "a.pbm", &all(5, 4, 1));
    here.put("bad", &WORKED[..20]);
    here.put("long", [&WORKED[..], b"x"].concat());
    here.put("photo.jpg", b"\xff\xd8\xff\xe0\0\x10JFIF");
    here.put("colour.ppm", "P6 1 1 255 abc");
    here.put("text", "Hello, this is a text");
    here.put("cut.pgm", &noise_picture(5, 4)[..20]);
    here.put("empty", "");
    for (name, status, words) in [
        ("bad", 3, "refused 12: the stream is shorter than its header: a header of 1 rectangle needs 22 bytes"),
        ("long", 3, "refused 12: the length field does not fit the length"),
        ("empty", 3, "refused 12: the stream is shorter than its header: 0 bytes"),
        (
            "photo.jpg",
            4,
            "a JPEG picture; PGM files (they begin with P5 or P2) and grey PNG files are taken: 'anytopnm",
        ),
        ("colour.ppm", 4, "a PPM picture, which has colours; colour waits for a later version"),
        ("text", 4, "not a picture that is taken; PGM files (they begin with P5 or P2) and grey PNG files are taken"),
        ("cut.pgm", 4, "the picture is cut: 9 of 20 bytes of samples are there; copy or make the file again\n"),
        ("a.pbm", 4, "a PBM bitmap, "),
    ] {
        nothing(&here, &format!("brightness {name} --rect 0,0,1,1"), status, &format!("dhiirqobaal: {name}: {words}"));
    }
    for name in ["photo.jpg", "colour.ppm", "text"] {
        nothing(&here, &format!("brightness {name} --rect 0,0,1,1"), 4, "; streams are taken too\n");
    }
    let words = "; --region takes it, for a stream or a picture in which it is the region\n";
    nothing(&here, "brightness a.pbm --rect 0,0,1,1", 4, words);
}

/// A stream whose length field was changed to a large one is taken as the other commands take it.
#[test]
fn a_stream_is_told_by_its_version_too() {
    let here = Folder::new();
    let mut changed = WORKED.to_vec();
    changed[0] = b'P';
    here.put("changed", &changed);
    here.ends("info changed", 0, "24 of 1,342,177,304 bytes arrived");
    assert_eq!(measured(&here, "brightness changed", 0).0[0].figures, [1, 10, 10, 0]);
    for (place, value) in [(4, 2), (13, 23)] {
        let mut bad = WORKED.to_vec();
        bad[place] = value;
        here.put("bad", bad);
        nothing(&here, "brightness bad", 3, "bad: refused 1");
    }
}

#[test]
fn wrong_usage() {
    let here = Folder::new();
    two_rectangles(&here, "");
    put(&here, "a.pbm", &all(31, 17, 1));
    let words = "in.pgm: a picture has no rectangles of its own: give --rect, --rects or --region\n";
    nothing(&here, "brightness in.pgm", 2, words);
    for options in ["--rect 3,2,9,5", "--rects list"] {
        nothing(&here, &format!("brightness all.stream --region a.pbm {options}"), 2, "cannot be used with");
    }
    for line in ["brightness - --rects -", "brightness - --region -"] {
        nothing(&here, line, 2, "standard input ('-') can be one input alone");
    }
}

/// As in a comparison of nothing, the status is 1.
#[test]
fn a_list_without_a_rectangle() {
    let here = Folder::new();
    two_rectangles(&here, "");
    here.put("list", "# none\n");
    for name in ["all.stream", "in.pgm"] {
        let words = format!("dhiirqobaal: {name}: there is no rectangle: nothing was measured\n");
        nothing(&here, &format!("brightness {name} --rects list"), 1, &words);
    }
    assert_eq!(measured(&here, "brightness in.pgm --rects list --rect 3,2,9,5", 0).0.len(), 1);
}

#[test]
fn through_standard_input() {
    let here = Folder::new();
    let (mark, _) = two_rectangles(&here, "");
    put(&here, "a.pbm", &scattered(1, 31, 17, 5));
    let stream = here.get("all.stream");
    let answer = here.fed("brightness -", &stream);
    assert_eq!((answer.status, answer.out), (0, here.run("brightness all.stream").out));
    let answer = here.fed("brightness - --region a.pbm", &here.get("in.pgm"));
    assert_eq!((answer.status, answer.out), (0, here.run("brightness in.pgm --region a.pbm").out));
    let answer = here.fed("brightness all.stream --rects -", b"3,2,9,5\n24,10,7,7\n");
    assert_eq!((answer.status, answer.out), (0, here.run("brightness all.stream").out));
    let found = lines(&here.fed("brightness in.pgm --region -", &here.get("a.pbm")));
    assert_eq!((found.len(), found[0].place.as_str()), (1, "region=-"));
    let answer = here.fed("brightness -", &stream[..mark - 1]);
    assert_eq!((answer.status, lines(&answer).len()), (1, 2));
    assert!(answer.err.starts_with("dhiirqobaal: standard input: "), "{}", answer.err);
}

/// The name is the last field, up to the end of its line, whatever it is.
#[test]
fn a_bitmap_of_any_name() {
    let here = Folder::new();
    here.put("in.pgm", noise_picture(5, 4));
    for (name, printed) in [("lamp 1.pbm", "lamp 1.pbm"), ("a=b c=d", "a=b c=d"), ("two\nlines", "two\\nlines")] {
        put(&here, name, &all(5, 4, 1));
        let mut command = here.program("brightness in.pgm --region");
        command.arg(name);
        let found = lines(&finish(command, b""));
        assert_eq!((found.len(), found[0].place.as_str()), (1, format!("region={printed}").as_str()));
    }
}

#[test]
fn quiet_leaves_the_lines_and_no_note() {
    let here = Folder::new();
    let (mark, _) = two_rectangles(&here, "");
    here.put("part", &here.get("all.stream")[..mark - 1]);
    for (name, status) in [("all.stream", 0), ("part", 1)] {
        let (loud, quiet) = (here.run(&format!("brightness {name}")), here.run(&format!("brightness -q {name}")));
        assert_eq!((quiet.status, quiet.out, quiet.err.as_str()), (status, loud.out, ""));
    }
    here.put("list", "");
    assert_eq!(here.run("-q brightness part --rects list").said(), "");
    nothing(&here, "brightness -q part --rect 31,0,1,1", 3, "part: refused 8");
}

/// Lines of the man page's examples, from one that begins with some words to one that ends with others.
fn example(start: &str, end: &str) -> String {
    let escapes = [("\\-", "-"), ("\\(aq", "'"), ("\\e", "\\")];
    let page = include_str!("../../man/dhiirqobaal.1").to_string();
    let page = escapes.iter().fold(page, |page, (escape, plain)| page.replace(escape, plain));
    let lines = page.lines().skip_while(|line| !line.starts_with(start));
    let mut found = String::new();
    for line in lines {
        found += &format!("{line}\n");
        if line.ends_with(end) {
            return found;
        }
    }
    panic!("the man page has no example from '{start}' to '{end}'");
}

/// The man page's own scripts: a loop of the shell, and a log's lines as one.
#[test]
fn scripts_read_the_lines() {
    let here = Folder::new();
    two_rectangles(&here, "");
    symlink("all.stream", here.path("screen.stream")).unwrap();
    symlink(env!("CARGO_BIN_EXE_dhiirqobaal"), here.path("dhiirqobaal")).unwrap();
    let script = [
        "PATH=.:$PATH\ndhiirqobaal brightness screen.stream > lamps.log\n",
        &example("dhiirqobaal brightness screen.stream |", "done"),
        &example("awk ", "lamps.log"),
    ];
    let mut command = here.command("sh");
    command.args(["-c", &script.concat()]);
    let captured = picture(&here, "in.pgm");
    let [first, second] = RECTANGLES.map(|rectangle| in_rectangle(&captured, rectangle));
    let (number, sum) = (first[0] + second[0], first[1] + second[1]);
    let both = format!("{number} {sum} {} {}", sum / number, sum % number);
    let expected = format!("3,2,9,5 {} yes\n24,10,7,7 {} yes\n{both}\n", first[2], second[2]);
    assert_eq!(finish(command, b"").said(), expected);
}
