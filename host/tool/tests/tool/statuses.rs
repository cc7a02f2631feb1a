//! Statuses that a script can use: 0 exact, 1 shown but not exact, 2 wrong usage, 3 refused, 4 input or output failed.

use crate::{mended, two_rectangles, Folder, UNMARKED, WORKED};

#[test]
fn of_a_stream() {
    let here = Folder::new();
    let (mark, total) = two_rectangles(&here, "");
    let all = here.get("all.stream");
    here.put("short", &all[..mark - 1]);
    here.put("mended", mended(all[..mark - 1].to_vec()));
    here.put("exact", &all[..mark]);
    here.put("bad", &all[..20]);
    for (name, status) in [("all.stream", 0), ("exact", 0), ("short", 1), ("mended", 1), ("bad", 3), ("none", 4)] {
        here.ends(&format!("info {name}"), status, "");
        here.ends(&format!("info --json {name}"), status, "");
        here.ends(&format!("show {name} out"), status, "");
    }
    for (name, wanted, status) in [
        ("all.stream", mark, 0),
        ("all.stream", total, 0),
        ("all.stream", mark - 1, 3),
        ("exact", mark, 0),
        ("short", mark - 1, 3),
        ("none", 1, 4),
    ] {
        here.ends(&format!("cut {name} out --length {wanted}"), status, "");
    }
}

#[test]
fn of_a_stream_without_a_rectangle() {
    let here = Folder::new();
    here.put("whole", UNMARKED);
    here.put("part", &UNMARKED[..15]);
    for command in ["info NAME", "show NAME out", "cut NAME out --seconds 1"] {
        here.ends(&command.replace("NAME", "whole"), 0, "every bit of the picture arrived");
        here.ends(&command.replace("NAME", "part"), 1, "not every bit of the picture arrived");
    }
    here.ends("cut whole out --length 15", 1, "not every bit of the picture arrived");
    here.ends("cut whole out --mark", 1, "not every bit of the picture arrived");
}

#[test]
fn of_a_comparison() {
    let here = Folder::new();
    here.put("a.pgm", "P2 2 1 9  1 2 ");
    here.put("b.pgm", "P2 2 1 9  1 3 ");
    here.put("c.pgm", "P2 1 2 9  1 3 ");
    here.put("none", "# no rectangle\n");
    here.put("unmarked", UNMARKED);
    here.put("d.pgm", "P2 2 2 9  1 2 3 4 ");
    here.ends("compare a.pgm a.pgm", 0, "no difference in 2 samples");
    here.ends("compare a.pgm b.pgm", 1, "1 of 2 samples differs");
    here.ends("compare a.pgm b.pgm --rect 0,0,1,1", 0, "no difference in 1 sample\n");
    here.ends("compare a.pgm b.pgm --rects none", 1, "nothing was compared");
    here.ends("compare d.pgm d.pgm --stream unmarked", 1, "nothing was compared");
    here.ends("compare a.pgm c.pgm", 4, "c.pgm: 1 by 2 samples, where a.pgm has 2 by 1");
    here.ends("compare a.pgm a.pgm --stream unmarked", 4, "unmarked: 2 by 2 samples");
    here.ends("compare a.pgm a.pgm --rect 0,0,3,1", 3, "refused 8");
}

#[test]
fn of_an_encoder() {
    let here = Folder::new();
    here.put("a.pgm", "P2 2 1 9  1 2 ");
    here.ends("encode a.pgm out", 0, "");
    here.ends("encode a.pgm out --levels 6", 3, "refused 2");
    here.ends("encode none out", 4, "none: no such file or directory");
    here.ends("encode out out2", 4, "out: ");
    here.ends("encode a.pgm none/out", 4, "none/out: no file can be made in none: no such file or directory");
    here.ends("encode a.pgm", 2, "two files");
}

#[test]
fn of_a_measurement() {
    let here = Folder::new();
    let (mark, _) = two_rectangles(&here, "");
    here.put("exact", &here.get("all.stream")[..mark]);
    here.put("short", &here.get("all.stream")[..mark - 1]);
    here.put("bad", &here.get("all.stream")[..20]);
    for (name, status) in [("all.stream", 0), ("exact", 0), ("short", 1), ("bad", 3), ("none", 4), ("in.pgm", 2)] {
        here.ends(&format!("brightness {name}"), status, "");
    }
    here.ends("brightness exact --rect 0,0,31,17", 1, "exact=no");
    here.ends("brightness all.stream --rect 0,0,31,17", 0, "exact=yes");
    here.ends("brightness in.pgm --rect 0,0,31,17", 0, "exact=unknown");
    here.ends("brightness in.pgm --rect 0,0,32,17", 3, "refused 8");
    here.ends("brightness in.pgm --region none", 4, "none: no such file or directory");
}

#[test]
fn of_a_bitmap() {
    let here = Folder::new();
    here.put("a.pbm", "P1 2 1 01");
    here.put("b.pbm", "P1 1 2 01");
    here.put("a.pgm", "P2 2 1 9  1 2 ");
    here.ends("mask a.pbm out", 0, "1 of 2 samples inside");
    here.ends("mask a.pbm out --levels 6", 3, "refused 2");
    here.ends("mask a.pgm out2", 4, "a.pgm: a PGM picture, not a bitmap");
    here.ends("mask none out2", 4, "none: no such file or directory");
    here.ends("mask a.pbm none/out", 4, "none/out: no file can be made in none: no such file or directory");
    here.ends("mask a.pbm", 2, "OUT");
    here.ends("join a.pbm out joined", 0, "2 of 2 samples inside");
    here.ends("join a.pbm b.pbm out2", 3, "refused 5");
    here.ends("join a.pbm out2 --rect 0,0,3,1", 3, "refused 8");
    here.ends("join a.pbm none out2", 4, "none: no such file or directory");
    here.ends("join a.pbm out2", 2, "at least two parts");
    assert_eq!(here.names(), ["a.pbm", "a.pgm", "b.pbm", "joined", "out"]);
}

#[test]
fn the_worst_of_several_files_counts() {
    let here = Folder::new();
    here.put("exact", WORKED);
    here.put("part", &WORKED[..23]);
    here.put("bad", &WORKED[..20]);
    here.ends("info exact exact", 0, "");
    here.ends("info part exact", 1, "");
    here.ends("info exact bad part", 3, "");
    here.ends("info bad none exact part", 4, "");
}

#[test]
fn a_failure_at_one_file_does_not_stop_the_others() {
    let here = Folder::new();
    here.put("exact", WORKED);
    here.put("part", &WORKED[..23]);
    here.put("bad", &WORKED[..20]);
    std::fs::create_dir(here.path("out")).unwrap();
    let answer = here.run("show --into out none bad part exact");
    assert_eq!(answer.status, 4);
    assert!(answer.err.contains("dhiirqobaal: none: no such file or directory\n"), "{}", answer.err);
    assert!(answer.err.contains("dhiirqobaal: bad: refused 12"), "{}", answer.err);
    assert_eq!(here.get("out/exact.pgm"), b"P5\n2 2\n255\n\x0a\x07\x04\x04");
    assert!(here.path("out/part.pgm").exists() && !here.path("out/bad.pgm").exists());
}

#[test]
fn help_tells_every_status() {
    let here = Folder::new();
    for line in [
        "--help",
        "-h",
        "encode --help",
        "info -h",
        "cut --help",
        "show -h",
        "compare -h",
        "brightness -h",
        "brightness --help",
        "mask -h",
        "mask --help",
        "join --help",
        "demo -h",
    ] {
        let answer = here.run(line);
        for words in
            ["  0  done", "  1  shown or told, but not exact", "  2  wrong usage", "  3  refused", "  4  input"]
        {
            assert!(answer.said().contains(words), "{line}: {words}");
        }
    }
}
