//! Messages that name the culprit: the file, the rectangle, the sample, the length, and what to do next.

use crate::{mended, noise_picture, two_rectangles, Folder, WORKED};

/// A call that is refused, with all of the words.
fn refused(here: &Folder, line: &str, words: &[&str]) {
    let answer = here.run(line);
    assert_eq!(answer.status, 3, "{line}: {}", answer.said());
    for word in words {
        assert!(answer.err.contains(word), "{line}: {word}: {}", answer.err);
    }
}

#[test]
fn the_rectangle() {
    let here = Folder::new();
    here.put("in.pgm", noise_picture(8, 6));
    let encode = "encode in.pgm out --rect 0,0,8,6";
    let cases = [
        ("1,2,0,4", "rectangle 2 of 2, 1,2,0,4: it is empty, its width is 0"),
        ("1,2,3,0", "rectangle 2 of 2, 1,2,3,0: it is empty, its height is 0"),
        ("5,0,4,1", "rectangle 2 of 2, 5,0,4,1: it ends beyond the right edge of the picture, 8 by 6"),
        ("1x7+0+0", "rectangle 2 of 2, 0,0,1,7: it ends beyond the lower edge of the picture, 8 by 6"),
        ("18446744073709551615,0,18446744073709551615,1", "18446744073709551615,0,18446744073709551615,1: it ends"),
        ("0,4294967295,1,4294967295", "0,4294967295,1,4294967295: it ends beyond the lower edge"),
    ];
    for (rectangle, words) in cases {
        refused(&here, &format!("{encode} --rect {rectangle}"), &["in.pgm: refused 8: a rectangle", words]);
    }
    refused(&here, &format!("encode in.pgm out{}", " --rect 0,0,1,1".repeat(33)), &["refused 7", "(there are 33)"]);
    let compare = "compare in.pgm in.pgm --rect 0,0,9,1";
    refused(&here, compare, &["in.pgm: refused 8", "rectangle 1 of 1, 0,0,9,1", "; a rectangle is x,y,w,h or WxH+X+Y"]);
    let brightness = "brightness in.pgm --rect 0,0,9,1";
    refused(
        &here,
        brightness,
        &["in.pgm: refused 8", "rectangle 1 of 1, 0,0,9,1", "; a rectangle is x,y,w,h or WxH+X+Y"],
    );
    let mut stream = WORKED.to_vec();
    stream[19] = 3;
    here.put("bad", stream);
    refused(
        &here,
        "info bad",
        &["bad: refused 8", "rectangle 1 of 1, 0,0,3,1: it ends beyond the right edge", "2 by 2"],
    );
    assert!(!here.path("out").exists());
}

#[test]
fn the_sample() {
    let here = Folder::new();
    here.put("in.pgm", "P2 3 2 255  1 2 3  4 9 255 ");
    let place = "the one in column 1, row 1 (counted from 0) is 9, the largest value at depth 3 is 7";
    refused(
        &here,
        "encode in.pgm out --depth 3",
        &["in.pgm: refused 6: a sample is above", place, "--depth 8 takes it"],
    );
    here.put("deep.pgm", "P2 1 2 65535  7 1024 ");
    let place = "column 0, row 1 (counted from 0) is 1024, the largest value at depth 10 is 1023";
    refused(&here, "encode deep.pgm out --depth 10", &["refused 6", place, "'pamdepth 1023 IN > OUT.pgm'"]);
}

#[test]
fn the_depth() {
    let here = Folder::new();
    here.put("in.pgm", "P2 1 2 65535  7 1023 ");
    let words = "the depth D is not 1 to 10 (the maximum value 65,535 has 16 bits); 'pamdepth 1023 IN > OUT.pgm'";
    let fits = "no sample is above 1,023, so that --depth 10 takes it as it is";
    refused(&here, "encode in.pgm out", &["in.pgm: refused 3", words, fits]);
    here.ends("encode in.pgm out --depth 10", 0, "the maximum value is 65,535");
    here.put("in.pgm", "P2 1 2 2047  7 1024 ");
    let answer = here.run("encode in.pgm out2");
    assert!(answer.err.contains("has 11 bits") && !answer.err.contains("--depth 10"), "{}", answer.err);
    refused(&here, "encode in.pgm out2 --depth 77", &["refused 3: the depth D is not 1 to 10 (it is 77)"]);
    here.put("in.pgm", "P2 1 2 255  7 8 ");
    refused(&here, "encode in.pgm out2 --depth 0", &["(it is 0); without --depth it is the picture's own, 8"]);
}

#[test]
fn the_size() {
    let here = Folder::new();
    here.put("wide.pgm", noise_picture(4100, 2));
    let words = "wide.pgm: refused 4: width or height is not 1 to 4,096 (it is 4,100 by 2)";
    refused(&here, "encode wide.pgm out", &[words, "'pamscale -xysize 4096 4096 IN > OUT.pgm'", "pamcut"]);
    refused(&here, "compare wide.pgm wide.pgm --rect 0,0,1,1", &[words]);
    here.ends("compare wide.pgm wide.pgm", 0, "no difference in 8,200 samples");
}

#[test]
fn the_kernel_and_the_levels() {
    let here = Folder::new();
    here.put("in.pgm", noise_picture(8, 6));
    refused(&here, "encode in.pgm out --kernel 9", &["in.pgm: refused 1: the kernel is not 0 to 3 (it is 9)"]);
    refused(&here, "encode in.pgm out --levels 0", &["refused 2: the levels J are not 1 to 5 (they are 0)"]);
    refused(&here, "encode in.pgm out --levels 18446744073709551615", &["(they are 18446744073709551615)"]);
}

#[test]
fn the_length_that_was_wanted() {
    let here = Folder::new();
    let (mark, total) = two_rectangles(&here, "");
    // In thousandths, rounded up.
    let seconds = (mark * 8 * 1000).div_ceil(115_200) as f64 / 1000.0;
    refused(
        &here,
        &format!("cut all.stream out --length {}", mark - 1),
        &[
            &format!("all.stream: refused 15: the wanted length, {} bytes, is below the region mark", mark - 1),
            &format!("region mark, {mark} bytes, {seconds:.3} s"),
            "--mark cuts to it",
        ],
    );
    refused(&here, "cut all.stream out --seconds 0", &["the wanted length, 0 bytes, is below the region mark"]);
    refused(
        &here,
        &format!("cut all.stream out --length {}", total + 1),
        &[&format!("refused 15: the wanted length, {} bytes, is above the stream's length, {total} bytes", total + 1)],
    );
    here.put("part", mended(here.get("all.stream")[..mark - 1].to_vec()));
    refused(&here, "cut part out --mark", &["part: refused 15: the marked part is not whole", "'show' shows"]);
    here.put("broken", &here.get("all.stream")[..mark - 1]);
    let arrived = format!("{} of {total} bytes arrived", mark - 1);
    refused(&here, "cut broken out --mark", &["broken: refused 15: the marked part is not whole", &arrived]);
    here.put("broken", &here.get("all.stream")[..mark + 1]);
    let arrived = format!("{} of {total} bytes arrived", mark + 1);
    refused(&here, &format!("cut broken out --length {}", mark + 2), &["is above what there is", &arrived]);
    assert!(!here.path("out").exists());
}

#[test]
fn the_number_in_a_stream() {
    let here = Folder::new();
    let with = |place: usize, value: u8| {
        let mut stream = WORKED.to_vec();
        stream[place] = value;
        stream
    };
    for (stream, words) in [
        (with(4, 2), "bad: refused 13: the stream's version is not 1 (byte 4 is 2)"),
        (with(5, 4), "bad: refused 1: the kernel is not 0 to 3 (it is 4)"),
        (with(6, 0), "bad: refused 2: the levels J are not 1 to 5 (they are 0)"),
        (with(7, 11), "bad: refused 3: the depth D is not 1 to 10 (it is 11)"),
        (with(9, 0), "bad: refused 4: width or height is not 1 to 4,096 (it is 0 by 2)"),
        (with(8, 0xff), "(it is 65,282 by 2)"),
        (
            with(12, 255),
            "bad: refused 12: the stream is shorter than its header: a header of 255 rectangles needs 2054",
        ),
        (with(13, 23), "bad: refused 14: the stream's plane count T is above 22 (byte 13 is 23)"),
        (mended([&WORKED[..], &[0]].concat()), "bad: refused 16: behind the complete body"),
        (with(3, 0x13), "24 bytes, where by that field they are 23"),
    ] {
        here.put("bad", stream);
        for line in ["info bad", "show bad out", "cut bad out --length 24", "brightness bad"] {
            refused(&here, line, &[words]);
        }
    }
    here.put("many", mended([&with(12, 33)[..], &[0; 8 * 32]].concat()));
    refused(&here, "info many", &["many: refused 7: there are more than 32 rectangles (there are 33)"]);
    assert!(!here.path("out").exists());
}

#[test]
fn a_picture_that_is_taken_for_a_stream_and_the_other_way_round() {
    let here = Folder::new();
    here.put("in.pgm", noise_picture(20, 20));
    refused(&here, "info in.pgm", &["in.pgm: refused 13", "begins like a picture, of which 'encode' makes a stream"]);
    here.put("stream", WORKED);
    here.ends("encode stream out", 4, "stream: it seems to be a stream");
}

#[test]
fn files_that_cannot_be_used() {
    let here = Folder::new();
    std::fs::create_dir(here.path("folder")).unwrap();
    here.put("empty", "");
    here.put("in.pgm", noise_picture(8, 8));
    for (line, words) in [
        ("encode missing out", "missing: no such file or directory\n"),
        ("encode folder out", "folder: is a directory\n"),
        ("encode empty out", "empty: the file is empty"),
        ("encode in.pgm folder", "folder: is a directory\n"),
        ("encode in.pgm nowhere/out", "nowhere/out: no file can be made in nowhere: no such file or directory\n"),
        ("encode in.pgm in.pgm/out", "in.pgm/out: not a directory\n"),
        ("encode in.pgm out --rects missing", "missing: no such file"),
        ("encode --into nowhere in.pgm", "nowhere: there is no such folder"),
        ("info missing", "missing: no such file"),
        ("info folder", "folder: is a directory"),
        ("show missing out", "missing: no such file"),
        ("cut folder out --length 9", "folder: is a directory"),
        ("compare in.pgm folder", "folder: is a directory"),
        ("compare in.pgm in.pgm --stream missing", "missing: no such file"),
        ("brightness missing", "missing: no such file"),
        ("brightness folder", "folder: is a directory"),
        ("brightness in.pgm --rects missing", "missing: no such file"),
        ("brightness in.pgm --region folder", "folder: is a directory"),
        ("brightness in.pgm --region empty", "empty: the file is empty; PBM files"),
        ("brightness in.pgm --region in.pgm", "in.pgm: a PGM picture, not a bitmap"),
        ("mask missing out", "missing: no such file"),
        ("mask folder out", "folder: is a directory"),
        ("mask empty out", "empty: the file is empty; PBM files"),
        ("mask in.pgm out", "in.pgm: a PGM picture, not a bitmap"),
        ("join folder in.pgm out", "folder: is a directory"),
        ("join empty out --rect 0,0,1,1", "empty: the file is empty"),
        ("demo empty", "empty: "),
    ] {
        here.ends(line, 4, words);
    }
    assert_eq!(here.names(), ["empty", "folder", "in.pgm"]);
}

#[test]
fn a_line_of_a_list_of_rectangles() {
    let here = Folder::new();
    here.put("in.pgm", noise_picture(8, 8));
    here.put("list", "# rectangles\n0,0,1,1\n\n0;0;1;1\n");
    here.ends("encode in.pgm out --rects list", 4, "list: line 4: '0;0;1;1' is no rectangle; a rectangle is x,y,w,h");
    let answer = here.fed("encode in.pgm out --rects -", b"1,2,3\n");
    assert_eq!(answer.status, 4);
    assert!(answer.err.contains("standard input: line 1: '1,2,3' is no rectangle"), "{}", answer.err);
}

/// Every refusal says what to do next.
#[test]
fn what_to_do() {
    let here = Folder::new();
    here.put("in.pgm", noise_picture(8, 6));
    refused(&here, "encode in.pgm out --kernel 4", &["refused 1", "--kernel takes s, s+p, tt or 5/3"]);
    refused(&here, "encode in.pgm out --levels 6", &["refused 2", "--levels takes 1 to 5"]);
    refused(&here, "encode in.pgm out --rect 0,0,9,1", &["refused 8", "x,y,w,h or WxH+X+Y"]);
    let many = " --rect 0,0,1,1".repeat(33);
    refused(&here, &format!("encode in.pgm out{many}"), &["refused 7", "one rectangle may go around several"]);
    let mut bad = WORKED.to_vec();
    bad[6] = 0;
    here.put("bad", bad);
    refused(&here, "info bad", &["refused 2", "receive it again"]);
    here.put("zeros", [0; 1000]);
    let answer = here.run("info zeros");
    assert!(answer.err.contains("refused 12") && !answer.err.contains("head -c"), "{}", answer.err);
}

/// A picture of 16 bits or of a large size in a PNG file: the command takes a PNG file.
#[test]
fn a_command_fits_the_format_of_the_file() {
    let here = Folder::new();
    for (name, file) in [("deep", "P2 2 1 65535  1 2000 "), ("wide", &format!("P2 4097 1 1 {}", "1 ".repeat(4097)))] {
        let picture = picture::parse(file.as_bytes()).unwrap();
        here.put(&format!("{name}.pgm"), file);
        here.put(&format!("{name}.png"), picture::format(&picture, picture::Format::Png).unwrap());
    }
    refused(&here, "encode deep.pgm out", &["refused 3", "'pamdepth 1023 IN > OUT.pgm'"]);
    refused(&here, "encode deep.png out", &["refused 3", "'pngtopnm IN | pamdepth 1023 > OUT.pgm'"]);
    refused(&here, "encode deep.png out --depth 10", &["refused 6", "'pngtopnm IN | pamdepth 1023 > OUT.pgm'"]);
    refused(&here, "encode wide.pgm out", &["refused 4", "'pamscale -xysize 4096 4096 IN > OUT.pgm'"]);
    refused(&here, "encode wide.png out", &["refused 4", "'pngtopnm IN | pamscale -xysize 4096 4096 > OUT.pgm'"]);
}

#[test]
fn which_of_the_causes_of_16() {
    let here = Folder::new();
    here.put("filling", [&WORKED[..23], &[0x01]].concat());
    refused(
        &here,
        "info filling",
        &["refused 16: behind the complete body a filling bit is not 0", "receive it again"],
    );
    for further in 1..4 {
        here.put("longer", mended([&WORKED[..], &[0; 3][..further]].concat()));
        refused(&here, "show longer out", &["refused 16: behind the complete body there is a further byte"]);
        refused(&here, "cut longer out --mark", &["refused 16: behind the complete body there is a further byte"]);
    }
}

#[test]
fn names_and_lines_are_printed_without_control_characters() {
    let here = Folder::new();
    here.put("in.pgm", noise_picture(8, 6));
    here.put("list", "\u{feff}0,0,1,1\n1,2\u{1b}[2J\n");
    let answer = here.run("encode in.pgm out --rects list");
    assert_eq!(answer.status, 4);
    assert!(answer.err.contains("list: line 2: '1,2\\u{1b}[2J' is no rectangle"), "{}", answer.err);
    let mut command = here.program("info");
    command.arg("no\u{7}\nfile");
    let answer = crate::finish(command, b"");
    assert!(answer.err.contains("no\\u{7}\\nfile: no such file"), "{}", answer.err);
}
