//! Conventions: help and version, options in both forms, quiet, kernels by name, rectangles, several files.

use crate::{noise_picture, told, two_rectangles, Folder, UNMARKED, WORKED};
use serde_json::json;
use std::ffi::OsStr;
use std::fs;
use std::os::unix::ffi::OsStrExt;

const COMMANDS: [&str; 9] = ["encode", "info", "cut", "show", "compare", "brightness", "mask", "join", "demo"];

#[test]
fn help_and_version_on_every_command() {
    let here = Folder::new();
    for words in ["-V", "--version"] {
        let answer = here.run(words);
        assert_eq!((answer.status, answer.said().as_str()), (0, "dhiirqobaal 1.3.1\n"));
    }
    for command in COMMANDS {
        for words in ["-h", "--help"] {
            here.ends(&format!("{command} {words}"), 0, &format!("dhiirqobaal {command}"));
        }
        here.ends(&format!("help {command}"), 0, &format!("dhiirqobaal {command}"));
        assert_eq!(here.run(&format!("{command} --version")).said(), "dhiirqobaal 1.3.1\n");
        here.ends("help", 0, &format!("\n  {command}"));
    }
    for line in ["help --help", "help -h", "help help", "help --version"] {
        assert_eq!(here.run(line).status, 0, "{line}");
    }
    for words in ["5/3 with 3 levels, the default", "96,735", "More levels show the rest of the picture"] {
        here.ends("encode --help", 0, words);
    }
    for words in ["number=N sum=S quotient=Q remainder=R exact=E rect=X,Y,W,H", "Numbers and sums add up"] {
        here.ends("brightness --help", 0, words);
    }
    for words in ["black is inside", "The mask lies where the coefficients lie", "in the upper left the lows"] {
        here.ends("mask --help", 0, words);
    }
    here.ends("join --help", 0, "The mask of joined regions is the join of their masks, byte for byte");
}

const WRONG: [&str; 63] = [
    "",
    "decode in.pgm out",
    "encode",
    "encode in.pgm",
    "encode in.pgm out third",
    "encode in.pgm out --unknown",
    "encode in.pgm out --kernel five",
    "encode in.pgm out --kernel",
    "encode in.pgm out --levels 1 --levels 2",
    "encode in.pgm out --levels three",
    "encode in.pgm out --rect 1,2,3",
    "encode in.pgm out --rect -1,2,3,4",
    "encode in.pgm out --baud 0",
    "encode in.pgm out --baud 1000000000001",
    "encode in.pgm out --bits-per-byte 0",
    "encode in.pgm out --bits-per-byte 101",
    "info",
    "info s --rect 1,2,3,4",
    "cut s out",
    "cut s out --length 24 --mark",
    "cut s out --length 24 --seconds 1",
    "cut s out --length -5",
    "cut s out --length 18446744073709551616",
    "cut s out --seconds 1e3",
    "cut s out --seconds 1.0000000001",
    "show s",
    "show s out --format jpeg",
    "show s out --level",
    "show s out --level two",
    "show s out --level -1",
    "show s out --level 1 --level 1",
    "info s --level 1",
    "compare in.pgm",
    "compare in.pgm in.pgm --stream s --rect 0,0,1,1",
    "compare in.pgm in.pgm --stream s --rects s",
    "brightness",
    "brightness in.pgm",
    "brightness unmarked",
    "brightness s s",
    "brightness s --rect 1,2,3",
    "brightness s --region in.pbm --rect 0,0,1,1",
    "brightness s --region in.pbm --rects s",
    "brightness s --region in.pbm --region in.pbm",
    "brightness s --level 1",
    "brightness s --depth 8",
    "mask",
    "mask in.pbm",
    "mask in.pbm out third",
    "mask in.pbm out --rect 0,0,1,1",
    "mask in.pbm out --kernel five",
    "mask in.pbm out --levels -1",
    "mask in.pbm out --levels 1 --levels 1",
    "join",
    "join in.pbm",
    "join in.pbm out",
    "join in.pbm --rect 0,0,1,1",
    "join in.pbm out --rect 1,2,3",
    "join in.pbm in.pbm out --kernel s",
    "join in.pbm in.pbm out --into folder",
    "join in.pbm out --rects s --rects s",
    "demo a b",
    "demo -",
    "help decode",
];

#[test]
fn wrong_usage() {
    let here = Folder::new();
    here.put("in.pgm", noise_picture(8, 8));
    here.put("in.pbm", "P1 2 1 01");
    here.put("s", WORKED);
    here.put("unmarked", UNMARKED);
    for line in WRONG {
        let answer = here.run(line);
        assert_eq!(answer.status, 2, "{line}: {}", answer.said());
        assert!(answer.out.is_empty() && answer.err.contains("--help") || line.is_empty(), "{line}: {}", answer.err);
    }
    assert_eq!(here.names(), ["in.pbm", "in.pgm", "s", "unmarked"]);
}

#[test]
fn options_with_an_equals_sign_and_in_any_order() {
    let here = Folder::new();
    here.put("in.pgm", noise_picture(31, 17));
    here.ends("encode in.pgm a --rect 1,2,3,4 --rect 0,0,9,9 --kernel tt --levels 5 --depth 9", 0, "");
    here.ends("encode --depth=9 --rect=1,2,3,4 in.pgm --levels=5 b --rect=0,0,9,9 --kernel=tt", 0, "");
    assert_eq!(here.get("a"), here.get("b"));
    let told = told(&here, "a");
    assert_eq!((&told["kernel"], &told["levels"], &told["depth"]), (&json!(2), &json!(5), &json!(9)));
}

#[test]
fn kernels_by_name_and_by_number() {
    let here = Folder::new();
    here.put("in.pgm", noise_picture(5, 4));
    let names =
        [(0, "S", "s"), (1, "S+P", "s+p"), (1, "SP", "s+p"), (2, "TT", "tt"), (3, "5/3", "5/3"), (3, "53", "5/3")];
    for (number, name, printed) in names {
        here.ends(&format!("encode in.pgm a --kernel {number}"), 0, "");
        here.ends(&format!("encode in.pgm b --kernel {name}"), 0, "");
        assert_eq!(here.get("a"), here.get("b"));
        here.ends("info a", 0, &format!("kernel        {number} ({printed})\n"));
        // As it is printed, it is taken again.
        here.ends(&format!("encode in.pgm c --kernel {printed}"), 0, "");
        assert_eq!(here.get("a"), here.get("c"));
    }
    here.ends("encode in.pgm d", 0, "");
    assert_eq!(here.get("d")[5..7], [3, 3]);
}

#[test]
fn rectangles_in_both_forms_and_from_a_file() {
    let here = Folder::new();
    here.put("in.pgm", noise_picture(31, 17));
    here.put("list", "# lamps\n9x5+3+2   # the first\n\n24,10,7,7\n");
    here.ends("encode in.pgm a --rect 1,1,2,2 --rect 3,2,9,5 --rect 24,10,7,7", 0, "");
    here.ends("encode in.pgm b --rect 2x2+1+1 --rect 9x5+3+2 --rect 7x7+24+10", 0, "");
    here.ends("encode in.pgm c --rects list --rect 1,1,2,2", 0, "");
    assert_eq!(here.get("a"), here.get("b"));
    assert_eq!(here.get("a"), here.get("c"));
    here.ends("compare in.pgm in.pgm --rects list", 0, "no difference in 94 samples");
}

#[test]
fn quiet_says_nothing_but_failures() {
    let here = Folder::new();
    let (mark, _) = two_rectangles(&here, "");
    here.put("in.pgm", "P2 2 2 200  1 2 3 4 ");
    here.put("part", &here.get("all.stream")[..mark - 1]);
    here.put("in.pbm", "P1 2 1 01");
    for (line, status) in [
        ("-q encode in.pgm out", 0),
        ("encode -q in.pgm out", 0),
        ("info --quiet all.stream", 0),
        ("info -q part", 1),
        ("cut all.stream cut --mark -q", 0),
        ("show -q part part.pgm --frames", 1),
        ("compare in.pgm in.pgm -q", 0),
        ("mask -q in.pbm mask.png", 0),
        ("-q join in.pbm in.pbm joined.png", 0),
    ] {
        let answer = here.run(line);
        assert_eq!((answer.status, answer.said().as_str()), (status, ""), "{line}");
    }
    here.ends("info -q none", 4, "none: no such file or directory");
    // Data is no saying.
    here.ends("info -q --json part", 1, "\"arrived\":");
    here.ends("brightness -q part", 1, "number=45 sum=");
}

/// Progress is said on a terminal alone; script makes one, where the machine has it.
#[test]
fn progress_on_a_terminal_alone() {
    let here = Folder::new();
    here.put("large.pgm", [&b"P5 4096 1024 255\n"[..], &vec![9; 4096 * 1024]].concat());
    let line = "encode large.pgm out --levels 1 --kernel s";
    assert_eq!(here.run(line).err, "");
    let on_terminal = |line: &str| {
        let mut script = here.command("script");
        script.args(["-qec", &format!("\"$TOOL\" {line}"), "/dev/null"]);
        let output = script.env("TOOL", env!("CARGO_BIN_EXE_dhiirqobaal")).output();
        output.map(|output| String::from_utf8_lossy(&output.stdout).into_owned()).unwrap_or_default()
    };
    let said = on_terminal(line);
    if !said.contains("region mark") {
        return println!("this machine has no program that makes a terminal");
    }
    assert!(said.contains("transforming ...") && said.contains("writing the stream ..."), "{said}");
    for line in [&format!("-q {line}"), "encode large.pgm out --depth 2"] {
        assert!(!on_terminal(line).contains("..."), "{line}");
    }
}

#[test]
fn cut_to_the_mark_and_to_seconds() {
    let here = Folder::new();
    let (mark, total) = two_rectangles(&here, "");
    let all = here.get("all.stream");
    let length = |options: &str| {
        here.ends(&format!("cut all.stream part {options}"), 0, "");
        let part = here.get("part");
        assert_eq!(part[4..], all[4..part.len()]);
        part.len()
    };
    assert_eq!(length("--mark"), mark);
    assert_eq!(length("--seconds 99"), total);
    // 4,000 bits a second are 500 bytes of 8 bits, or 400 of 10.
    assert!(mark < 400 && total > 500);
    assert_eq!(length("--seconds 1 --baud 4000"), 500);
    assert_eq!(length("--seconds 1 --baud 4000 --bits-per-byte 10"), 400);
    assert_eq!(length("--seconds 0.999999999 --baud 4000"), 499);
    here.ends("cut all.stream part --seconds 1 --baud 4000 --bits-per-byte 10", 0, "1.000 s");
    here.ends("cut all.stream part --seconds 1 --baud 4000", 0, "4,000 bits a second and 8 bits a byte");
    here.ends("info part --baud 2000 --bits-per-byte 10", 0, "length        500 bytes, 2.500 s");
    here.ends("encode in.pgm out --baud 9600 --bits-per-byte 10", 0, "9,600 bits a second and 10 bits a byte");
}

#[test]
fn json_is_one_object_a_line() {
    let here = Folder::new();
    here.put("whole", WORKED);
    here.put("part", &WORKED[..23]);
    here.put("none", UNMARKED);
    let answer = here.run("info --json whole part missing none --baud 192 --bits-per-byte 8");
    let lines: Vec<serde_json::Value> =
        String::from_utf8(answer.out).unwrap().lines().map(|line| serde_json::from_str(line).unwrap()).collect();
    assert_eq!(answer.status, 4);
    // At 192 bits a second the cable carries 24 bytes a second.
    assert_eq!(
        lines[0],
        json!({
            "file": "whole", "arrived": 24, "sent": 24, "kernel": 0, "kernel_name": "s", "levels": 1, "depth": 8,
            "width": 2, "height": 2,
            "sizes": [{"level": 0, "width": 2, "height": 2}, {"level": 1, "width": 1, "height": 1}],
            "planes": 3, "rectangles": [{"x": 0, "y": 0, "width": 1, "height": 1}],
            "coefficients": 4, "marked": 4, "marked_bits_arrived": true, "region_mark": 24, "seconds": 1.0,
            "region_mark_seconds": 1.0, "body_start": 22, "body_length": 2, "q": 0, "complete": true,
        })
    );
    assert_eq!(
        lines[1],
        json!({
            "file": "part", "arrived": 23, "sent": 24, "kernel": 0, "kernel_name": "s", "levels": 1, "depth": 8,
            "width": 2, "height": 2,
            "sizes": [{"level": 0, "width": 2, "height": 2}, {"level": 1, "width": 1, "height": 1}],
            "planes": 3, "rectangles": [{"x": 0, "y": 0, "width": 1, "height": 1}],
            "coefficients": 4, "marked": 4, "marked_bits_arrived": false, "region_mark": null, "seconds": 0.958333334,
            "region_mark_seconds": null, "body_start": 22, "body_length": 1, "q": 3, "complete": false,
        })
    );
    assert_eq!(lines[2]["rectangles"], json!([]));
    assert_eq!((&lines[2]["region_mark"], &lines[2]["marked_bits_arrived"]), (&json!(14), &json!(true)));
    assert_eq!(lines.len(), 3);
}

/// The times that are printed carry the bytes that they are printed for.
#[test]
fn printed_seconds_are_taken_again() {
    let here = Folder::new();
    let (mark, _) = two_rectangles(&here, "");
    let seconds = &told(&here, "all.stream")["region_mark_seconds"];
    here.ends(&format!("cut all.stream a --seconds {seconds}"), 0, "");
    let text = here.run("info all.stream").said();
    let line = text.lines().find(|line| line.starts_with("region mark")).unwrap();
    let printed = line.rsplit(' ').nth(1).unwrap();
    here.ends(&format!("cut all.stream b --seconds {printed}"), 0, "");
    assert_eq!(here.get("a").len(), mark);
    assert!(here.get("b").len() >= mark);
}

/// Several streams in one report: a line between them, and the rule of the seconds once.
#[test]
fn several_streams_in_one_report() {
    let here = Folder::new();
    here.put("a", WORKED);
    here.put("b", UNMARKED);
    let said = here.run("info a b").said();
    assert_eq!(said.matches("seconds are at").count(), 1);
    assert!(said.contains("\n\nstream        b\n") && said.trim_end().ends_with("(no start and stop bits)"), "{said}");
}

/// A rectangle in the middle of a dark picture, and one in its corner: the frames are bright, and cover no rectangle.
#[test]
fn frames_around_exact_rectangles() {
    let here = Folder::new();
    here.put("in.pgm", [&b"P5 7 5 255\n"[..], &[40; 35]].concat());
    here.ends("encode in.pgm s --rect 2,2,2,1 --rect 6,0,1,2", 0, "");
    here.ends("show s plain.pgm", 0, "");
    here.ends("show s framed.pgm --frames", 0, "");
    let framed = here.get("framed.pgm");
    let (header, samples) = framed.split_at(framed.len() - 35);
    assert_eq!(header, b"P5\n7 5\n255\n");
    let bright: String = samples.iter().map(|&s| if s == 255 { '#' } else { '.' }).collect();
    assert_eq!(bright, [".....#.", ".#####.", ".#..###", ".####..", "......."].concat());
    assert!(samples.iter().all(|&s| s == 255 || s == 40));
    here.put("part", &here.get("s")[..31]);
    here.ends("show part part.pgm", 1, "");
    here.ends("show part framed.pgm --frames", 1, "part: not every marked bit arrived, so that no frame is drawn");
    assert_eq!(here.get("part.pgm"), here.get("framed.pgm"));
}

/// Blanks, and bytes that are no text.
#[test]
fn files_of_any_name() {
    let here = Folder::new();
    let name = OsStr::from_bytes(b"a b\xff.stream");
    fs::write(here.path(".").join(name), WORKED).unwrap();
    fs::create_dir(here.path("out")).unwrap();
    let status = here.program("-q show --into out").arg(name).status().unwrap();
    assert_eq!(status.code(), Some(0));
    let shown = here.path("out").join(OsStr::from_bytes(b"a b\xff.pgm"));
    assert_eq!(fs::read(shown).unwrap(), b"P5\n2 2\n255\n\x0a\x07\x04\x04");
    let answer = here.program("info --json").arg(name).output().unwrap();
    let told: serde_json::Value = serde_json::from_slice(&answer.stdout).unwrap();
    assert_eq!(told["file"], "a b\u{fffd}.stream");
}

#[test]
fn several_files_in_one_call() {
    let here = Folder::new();
    here.put("a.pgm", noise_picture(8, 8));
    here.put("b.x.pgm", noise_picture(9, 5));
    for folder in ["streams", "cuts", "pictures"] {
        fs::create_dir(here.path(folder)).unwrap();
    }
    here.ends("encode --into streams a.pgm b.x.pgm --rect 0,0,2,2", 0, "");
    here.ends("cut --into cuts streams/a.stream streams/b.x.stream --mark", 0, "");
    here.ends("show --into pictures cuts/a.stream cuts/b.x.stream", 0, "");
    here.ends("info cuts/a.stream cuts/b.x.stream", 0, "stream        cuts/b.x.stream\n");
    here.ends("compare a.pgm pictures/a.pgm --stream cuts/a.stream", 0, "no difference in 4 samples");
    here.ends("compare b.x.pgm pictures/b.x.pgm --stream cuts/b.x.stream", 0, "no difference in 4 samples");
    here.ends(
        "show --into pictures cuts/a.stream streams/a.stream",
        2,
        "two inputs would be written to pictures/a.pgm",
    );
    here.ends("encode --into streams a.pgm ..", 2, ".. is not the name of a file");
}
