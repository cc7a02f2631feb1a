//! Honest words: a changed bit cannot be seen, and with no rectangle nothing is exact.

use crate::{told, two_rectangles, Folder, UNMARKED, WORKED};

#[test]
fn what_arrived_is_not_called_right() {
    let here = Folder::new();
    let (mark, _) = two_rectangles(&here, "");
    let mut changed = here.get("all.stream");
    changed[mark - 1] ^= 0x40;
    here.put("changed", changed);
    let answer = here.run("info changed");
    assert_eq!(answer.status, 0);
    let text = answer.said();
    assert!(text.contains("every bit of the 2 rectangles arrived: they are exact unless the link changed a bit"));
    assert!(!text.contains("right") && !text.contains("correct"), "{text}");
    here.ends("show changed out.pgm", 0, "they are exact unless the link changed a bit");
    here.ends("compare in.pgm out.pgm --stream changed", 1, "differ");
    here.ends("info --help", 0, "that all marked bits arrived does not say that they are right");
    here.ends("brightness changed", 0, " exact=yes rect=3,2,9,5\n");
    here.ends("brightness --help", 0, "that was captured, unless the link changed a bit");
}

#[test]
fn without_a_rectangle_nothing_is_exact() {
    let here = Folder::new();
    here.put("whole", UNMARKED);
    here.put("part", &UNMARKED[..15]);
    for line in ["info NAME", "show NAME out", "cut NAME out --seconds 1", "show NAME out --frames"] {
        for name in ["whole", "part"] {
            let text = here.run(&line.replace("NAME", name)).said();
            assert!(text.contains("no rectangle is marked"), "{text}");
            assert!(!text.contains("exact"), "{text}");
        }
    }
    assert_eq!(told(&here, "whole")["complete"], true);
    assert_eq!(told(&here, "part")["complete"], false);
}

#[test]
fn one_thing_is_singular() {
    let here = Folder::new();
    here.put("one", WORKED);
    here.ends("info one", 0, "every bit of the rectangle arrived: it is exact unless the link changed a bit");
    here.ends("show one out.pgm", 0, "every bit of the rectangle arrived");
    here.put("part", &WORKED[..23]);
    here.ends("show part out.pgm", 1, "not every bit of the rectangle arrived: it is not exact");
    here.put("dot.pgm", "P2 1 1 9 0 ");
    here.ends("encode dot.pgm dot", 0, "14 bytes, 0.001 s; no rectangle is marked; region mark 14 bytes");
    here.ends("encode dot.pgm dot", 0, "0 of 1 coefficient marked");
    here.ends("info dot", 0, "body          0 bytes");
    here.ends("compare dot.pgm dot.pgm", 0, "no difference in 1 sample\n");
    here.ends("encode dot.pgm dot2 --rect 0,0,1,1", 0, "22 bytes, 0.002 s; 1 rectangle; region mark 22 bytes");
}

#[test]
fn help_says_that_the_link_must_deliver_bytes_unchanged() {
    Folder::new().ends("--help", 0, "The link must deliver bytes unchanged");
}
