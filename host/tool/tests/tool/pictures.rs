//! Pictures as people have them: PGM and PNG, of 1 to 16 bits, and no sample changed.

use crate::{noise, noise_picture, told, Folder, WORKED};

#[test]
fn png_in_and_out() {
    let here = Folder::new();
    here.put("in.pgm", noise_picture(13, 7));
    here.ends("encode in.pgm a.stream --rect 1,1,3,3", 0, "");
    here.ends("show a.stream a.png", 0, "");
    assert!(here.get("a.png").starts_with(b"\x89PNG\r\n\x1a\n"));
    here.ends("compare in.pgm a.png", 0, "no difference in 91 samples");
    here.ends("encode a.png b.stream --rect 1,1,3,3", 0, "");
    assert_eq!(here.get("a.stream"), here.get("b.stream"));
}

#[test]
fn the_format_is_that_of_the_ending_or_of_the_option() {
    let here = Folder::new();
    here.put("s", WORKED);
    for (line, start) in [
        ("show s a.png", &b"\x89PNG"[..]),
        ("show s a.PNG", b"\x89PNG"),
        ("show s a.pgm", b"P5\n"),
        ("show s a.pnm", b"P5\n"),
        ("show s a", b"P5\n"),
        ("show s a.png --format pgm", b"P5\n"),
        ("show s a.pgm --format=png", b"\x89PNG"),
        ("show s a.pgm --format PNG", b"\x89PNG"),
        ("show s a.pgm --format plain", b"P2\n2 2\n255\n10 7"),
        ("show s - --format png", b"\x89PNG"),
        ("show s -", b"P5\n"),
    ] {
        let answer = here.run(line);
        assert_eq!(answer.status, 0, "{line}: {}", answer.err);
        let name = line.split(' ').nth(2).unwrap();
        let file = if name == "-" { answer.out } else { here.get(name) };
        assert!(file.starts_with(start), "{line}");
    }
    std::fs::create_dir(here.path("d")).unwrap();
    here.ends("show --into d s --format png", 0, "");
    here.ends("show --into d s", 0, "");
    assert!(here.get("d/s.png").starts_with(b"\x89PNG") && here.get("d/s.pgm").starts_with(b"P5"));
}

#[test]
fn every_depth_comes_back_through_every_format() {
    let here = Folder::new();
    for depth in 1..=10u32 {
        let top = (1u16 << depth) - 1;
        let bytes = noise(depth.into(), 2 * 5 * 4);
        let sample = |pair: &[u8]| (u16::from_be_bytes([pair[0], pair[1]]) & top).to_string();
        let samples: Vec<String> = bytes.chunks(2).map(sample).collect();
        here.put("in.pgm", format!("P2 5 4 {top} {} ", samples.join(" ")));
        here.ends("encode in.pgm s --levels 2", 0, "");
        assert_eq!(told(&here, "s")["depth"], depth);
        for options in ["out.pgm", "out.png", "out.pgm --format plain"] {
            here.ends(&format!("show s {options}"), 0, "");
            let shown = options.split(' ').next().unwrap();
            here.ends(&format!("compare in.pgm {shown}"), 0, "no difference in 20 samples");
            let text = here.run(&format!("compare in.pgm {shown}")).said();
            assert!(!text.contains("maximum values differ"), "{depth} {options}: {text}");
        }
    }
}

#[test]
fn a_maximum_value_that_is_not_that_of_the_depth_is_said() {
    let here = Folder::new();
    here.put("in.pgm", "P2 2 1 200  200 7 ");
    let note =
        "in.pgm: the maximum value is 200; a stream has the depth alone, 8 bits, so that shown pictures have 255";
    here.ends("encode in.pgm s", 0, note);
    here.ends("show s out.pgm", 0, "");
    assert_eq!(here.get("out.pgm"), b"P5\n2 1\n255\n\xc8\x07");
    here.ends("compare in.pgm out.pgm", 0, "the maximum values differ, 200 and 255; samples are compared as numbers");
    here.put("full.pgm", "P2 2 1 255  200 7 ");
    assert_eq!(here.run("encode full.pgm s").err, "");
    here.ends("encode full.pgm s --depth 10", 0, "10 bits, so that shown pictures have 1,023");
}

#[test]
fn the_first_picture_of_a_file_is_taken() {
    let here = Folder::new();
    here.put("one.pgm", "P5 # a comment\n2 1\n255\n\x01\x02");
    here.put("two.pgm", "P5 # a comment\n2 1\n255\n\x01\x02P5 1 1 255 \x03");
    here.ends("encode one.pgm a", 0, "");
    here.ends("encode two.pgm b", 0, "");
    assert_eq!(here.get("a"), here.get("b"));
}

/// As netpbm reads it, the LF is a sample: that is said.
#[test]
fn a_header_with_cr_lf() {
    let here = Folder::new();
    here.put("in.pgm", b"P5\r\n2 1\r\n255\r\nab");
    here.ends("encode in.pgm s", 0, "in.pgm: the header ends with CR LF");
    here.ends("show s out.pgm", 0, "");
    assert_eq!(here.get("out.pgm"), b"P5\n2 1\n255\n\na");
}

#[test]
fn colour_waits_for_a_later_version() {
    let here = Folder::new();
    here.put("in.ppm", "P3 1 1 255 1 2 3 ");
    here.ends("encode in.ppm out", 4, "in.ppm: a PPM picture");
    here.ends("encode in.ppm out", 4, "'ppmtopgm IN > OUT.pgm'");
    assert!(!here.path("out").exists());
}
