//! Times the static library beside the reference, the base, OpenJPEG and a plain
//! copy of the same buffers, and prints tables in Markdown. Every answer timed is
//! compared with the reference's, the base's or the picture itself. Arguments
//! name the sections that are wanted; without any, all are printed.

mod base;
mod brightness;
mod cut_streams;
mod joining;
mod little_region;
mod outside;
mod outside_53;
mod outside_codec;
mod panel;
mod small_picture;
mod streams;
mod table;
mod transforms;
mod whole_shot;

use std::{env, process};

use benchmark::picture;
use benchmark::size::{regions, Size};

use table::{print_growth, print_table, Row};

/// By their samples, the smallest first.
const SIZES: [Size; 4] = [
    Size::new(512, 512),
    Size::new(1366, 768),
    Size::new(2048, 2048),
    Size::new(4096, 4096),
];
const KERNELS: [&str; 4] = ["0, S", "1, S+P", "2, TT", "3, 5/3"];

/// The sections of the calls at every size.
fn print_calls(sizes: &[Size]) {
    let (mut there, mut back, mut masks) = (Vec::new(), Vec::new(), Vec::new());
    let (mut written, mut read) = (Vec::new(), Vec::new());
    for &size in sizes {
        let samples = picture(size.w, size.h);
        for kernel in 0..4 {
            for levels in [1, 5] {
                let [a, b] = transforms::transform_rows(kernel, size, levels, &samples);
                there.push(a);
                back.push(b);
                masks.push(transforms::mask_row(kernel, size, levels));
            }
        }
        for (share, numbers) in regions(size) {
            let [a, b] = streams::stream_rows(size, share, &numbers, &samples);
            written.push(a);
            read.push(b);
        }
    }
    print_table("Transform", "kernel | levels", &there);
    print_table("Undo", "kernel | levels", &back);
    print_table("Mask", "kernel | levels", &masks);
    print_table("Write", "region", &written);
    print_table("Read", "region", &read);
    let tables: [(&str, &[Row]); 5] = [
        ("transform", &there),
        ("undo", &back),
        ("mask", &masks),
        ("write", &written),
        ("read", &read),
    ];
    print_growth(sizes, &tables);
}

fn main() {
    let largest = SIZES[SIZES.len() - 1];
    let samples = picture(largest.w, largest.h);
    let sections: [(&str, &dyn Fn()); 8] = [
        ("calls", &|| print_calls(&SIZES)),
        ("base", &base::print),
        ("little", &|| little_region::print(largest, &samples)),
        ("cut", &|| cut_streams::print(largest, &samples)),
        ("small", &|| small_picture::print(largest, &samples)),
        ("join", &|| joining::print(&SIZES)),
        ("brightness", &|| brightness::print(&SIZES[1..])),
        ("shot", &|| whole_shot::print(&SIZES)),
    ];
    let wanted: Vec<String> = env::args().skip(1).collect();
    let names = sections.map(|(name, _)| name);
    if let Some(other) = wanted.iter().find(|&name| !names.contains(&name.as_str())) {
        eprintln!("no section '{other}'; there are {}", names.join(", "));
        process::exit(2);
    }
    for (name, print) in sections {
        if wanted.is_empty() || wanted.iter().any(|section| section == name) {
            print();
        }
    }
}

/// Each section on a small picture, with every comparison that it makes;
/// `cargo test --release -p benchmark -- --nocapture` shows the tables.
#[cfg(test)]
mod tests {
    use super::*;

    /// All five levels work on odd sides.
    const SMALL: Size = Size::new(193, 161);

    #[test]
    fn calls() {
        print_calls(&[SMALL]);
    }

    #[test]
    fn little() {
        little_region::print(SMALL, &picture(SMALL.w, SMALL.h));
    }

    #[test]
    fn cut() {
        cut_streams::print(SMALL, &picture(SMALL.w, SMALL.h));
    }

    #[test]
    fn small() {
        small_picture::print(SMALL, &picture(SMALL.w, SMALL.h));
    }

    #[test]
    fn join() {
        joining::print(&[SMALL]);
    }

    #[test]
    fn brightness() {
        brightness::print(&[SMALL]);
    }

    #[test]
    fn shot() {
        whole_shot::print(&[SMALL]);
    }
}
