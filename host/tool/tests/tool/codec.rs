//! Pictures there and back, under every kernel and size; what is no file of ours; the demonstration.

use crate::{mended, noise, noise_picture, told, two_rectangles, Folder, WORKED};

#[test]
fn the_worked_shot() {
    let here = Folder::new();
    here.put("in.pgm", "P2\n2 2\n255\n10 7\n4 4\n");
    here.ends("encode in.pgm out --kernel s --levels 1 --rect 0,0,1,1", 0, "region mark 24 bytes");
    assert_eq!(here.get("out"), WORKED);
    here.ends("info out", 0, "region mark   24 bytes");
    here.ends("show out shown.pgm", 0, "");
    assert_eq!(here.get("shown.pgm"), b"P5\n2 2\n255\n\x0a\x07\x04\x04");
    here.ends("compare in.pgm shown.pgm", 0, "no difference in 4 samples");
}

#[test]
fn the_region_is_exact_at_every_length() {
    let here = Folder::new();
    for kernel in 0..4 {
        let (mark, total) = two_rectangles(&here, &format!("--kernel {kernel} --levels 5"));
        assert!(mark < total);
        for length in (mark..=total).step_by(97) {
            here.ends(&format!("cut all.stream part --length {length}"), 0, "");
            assert_eq!(here.get("part").len(), length);
            here.ends("show part shown.pgm", 0, "");
            here.ends("compare in.pgm shown.pgm --stream part", 0, "no difference in 94 samples");
        }
        here.ends(&format!("cut all.stream part --length {}", mark - 1), 3, &format!("region mark, {mark} bytes"));
        here.ends(&format!("cut all.stream part --length {}", total + 1), 3, "refused 15");
        here.ends("cut all.stream part --seconds 0.001", 3, "refused 15");
        here.ends("cut all.stream part --seconds 99", 0, &format!("{total} of {total} bytes"));
    }
}

#[test]
fn differences_are_found() {
    let here = Folder::new();
    here.put("a.pgm", "P2 3 2 9  1 2 3  4 5 6 ");
    here.put("b.pgm", "P2 3 2 9  1 2 3  4 9 5 ");
    here.ends("compare a.pgm b.pgm", 1, "2 of 6 samples differ; the first one at x 1 y 1: 5 and 9");
    here.ends("compare a.pgm b.pgm --rect 2,0,1,2", 1, "1 of 2 samples differs; the first one at x 2 y 1: 6 and 5");
    here.ends("compare a.pgm b.pgm --rect 0,0,1,2 --rect 0,0,3,1", 0, "no difference in 4 samples");
    here.ends("compare a.pgm b.pgm --rect 0,0,4,1", 3, "refused 8");
}

#[test]
fn any_size() {
    let here = Folder::new();
    for (width, height) in [(1, 1), (2, 1), (1, 3), (5, 2), (6, 4), (13, 7), (43, 24), (4096, 1), (1, 4095)] {
        here.put("in.pgm", noise_picture(width, height));
        for (kernel, levels) in [(0, 1), (1, 2), (2, 3), (3, 5)] {
            here.ends(&format!("encode in.pgm out --kernel {kernel} --levels {levels} --rect 0,0,1,1"), 0, "");
            here.ends("show out shown.pgm", 0, "");
            here.ends("compare in.pgm shown.pgm", 0, "no difference in ");
        }
    }
}

#[test]
fn noise_never_panics() {
    let here = Folder::new();
    for seed in 0..15 {
        let length = noise(seed, 1)[0] as usize;
        here.put("noise", noise(seed + 1000, length));
        let mut stream = mended([&WORKED[..14], &noise(seed, 40)].concat());
        stream[5 + seed as usize % 9] = seed as u8;
        here.put("stream", stream);
        let mut file = b"P5 4 4 255 ".to_vec();
        file.extend(noise(seed, 16));
        file[seed as usize % 11] = noise(seed, 1)[0];
        here.put("file.pgm", file);
        let mut file = b"P4 12 8 ".to_vec();
        file.extend(noise(seed, 16));
        file[seed as usize % 8] = noise(seed, 1)[0];
        here.put("file.pbm", file);
        for name in ["noise", "stream", "file.pgm", "file.pbm"] {
            here.run(&format!("info {name}"));
            here.run(&format!("show {name} out --frames"));
            here.run(&format!("show {name} out --frames --level {}", seed % 7));
            here.run(&format!("cut {name} out --length {length}"));
            here.run(&format!("encode {name} out --levels 1"));
            here.run(&format!("compare {name} file.pgm"));
            here.run(&format!("brightness {name}"));
            here.run(&format!("brightness {name} --rect 0,0,1,1"));
            here.run(&format!("brightness {name} --region file.pbm"));
            here.run(&format!("mask {name} out --levels 1"));
            here.run(&format!("join {name} {name} out --rect 0,0,1,1"));
        }
    }
}

/// The figures are those of the README.
#[test]
fn the_demonstration() {
    let here = Folder::new();
    let answer = here.run("demo shots");
    assert_eq!((answer.status, answer.err.as_str()), (0, ""));
    let text = answer.said();
    let row = |name: &str| {
        let line = text.lines().find(|line| line.starts_with(name)).unwrap_or("");
        line.strip_prefix(name).unwrap_or("").split_whitespace().collect::<Vec<_>>().join(" ")
    };
    assert_eq!(row("region mark"), "98354 6.831 9 exact 240 117.601");
    assert_eq!(row("16 s"), "230400 16.000 8 exact 232 57.674");
    assert_eq!(row("32 s"), "460800 32.000 7 exact 185 27.324");
    assert_eq!(row("64 s"), "921600 64.000 3 exact 15 1.744");
    assert_eq!(row("all"), "1251984 86.944 0 exact 0 0.000");
    assert!(row("4 s *").starts_with("57600 4.000 9 ") && row("4 s *").contains("samples differ"));
    let told = told(&here, "shots/panel.stream");
    assert_eq!((told["width"].as_u64(), told["height"].as_u64()), (Some(1366), Some(768)));
    assert_eq!(told["rectangles"].as_array().unwrap().len(), 8);
    here.ends("cut shots/panel.stream marked --mark", 0, "98,354 of 1,251,984 bytes");
    for (level, size) in [(3, "171 96"), (2, "342 192"), (1, "683 384"), (0, "1366 768")] {
        let file = format!("cut-0098354-level-{level}.pgm");
        assert_eq!(row(&format!("{level}   ")), format!("{} alike {file}", size.replace(' ', " by ")));
        here.ends(&format!("show marked level.pgm --level {level}"), 0, "");
        assert_eq!(here.get(&format!("shots/{file}")), here.get("level.pgm"));
        assert!(here.get("level.pgm").starts_with(format!("P5\n{size}\n255\n").as_bytes()));
    }
    assert_eq!(row("cut-0098354-level-0.pgm"), "is the same picture as cut-0098354.pgm");
    assert_eq!(here.get("shots/cut-0098354-level-0.pgm"), here.get("shots/cut-0098354.pgm"));
    // The line that the man page has.
    let line = "number=4761 sum=858360 quotient=180 remainder=1380 exact=yes rect=109,234,69,69";
    assert!(include_str!("../../man/dhiirqobaal.1").contains(line));
    assert_eq!(here.run("brightness shots/panel.stream --rect 109,234,69,69").said(), format!("{line}\n"));
    here.put("part", &here.get("marked")[..57_600]);
    here.ends("show part part.pgm", 1, "57,600 of 98,354 bytes arrived; not every bit of the 8 rectangles arrived");
}
