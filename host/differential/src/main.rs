//! Compares the static library of the C interface with the reference: the same
//! number returned, the same content of every buffer, no element beside a
//! buffer altered. Every case follows from a fixed seed.
//!
//! Without arguments every group is run; with a group's name that group alone;
//! with a name and a case number that case alone.

mod abort;
mod arguments;
mod brightness;
mod brightness_laws;
mod call;
mod chains;
mod group;
mod guarded;
mod joins;
mod levels;
mod random;
mod shots;
mod streams;

use std::collections::BTreeSet;
use std::env;
use std::io::{self, Write};
use std::process::ExitCode;

use group::Group;
use random::Random;

/// Name, number of cases, one case.
type Entry = (&'static str, u64, fn(&mut Group, &mut Random));

#[rustfmt::skip]
const GROUPS: [Entry; 90] = [
    ("region, accepted", 4_000, arguments::region::accepted),
    ("region, one wrong argument", 9_000, arguments::region::one_wrong),
    ("region, several wrong arguments", 20_000, arguments::region::several_wrong),
    ("mask, accepted", 4_000, arguments::mask::accepted),
    ("mask, one wrong argument", 9_000, arguments::mask::one_wrong),
    ("mask, several wrong arguments", 20_000, arguments::mask::several_wrong),
    ("join, accepted", 4_000, arguments::join::accepted),
    ("join, one wrong argument", 9_000, arguments::join::one_wrong),
    ("join, several wrong arguments", 20_000, arguments::join::several_wrong),
    ("transform, accepted", 4_000, arguments::transform::accepted),
    ("transform, one wrong argument", 9_000, arguments::transform::one_wrong),
    ("transform, several wrong arguments", 20_000, arguments::transform::several_wrong),
    ("undo, accepted", 4_000, arguments::undo::accepted),
    ("undo, one wrong argument", 9_000, arguments::undo::one_wrong),
    ("undo, several wrong arguments", 20_000, arguments::undo::several_wrong),
    ("show, accepted", 4_000, arguments::show::accepted),
    ("show, one wrong argument", 9_000, arguments::show::one_wrong),
    ("show, several wrong arguments", 20_000, arguments::show::several_wrong),
    ("show_level, accepted", 4_000, arguments::show_level::accepted),
    ("show_level, one wrong argument", 9_000, arguments::show_level::one_wrong),
    ("show_level, several wrong arguments", 20_000, arguments::show_level::several_wrong),
    ("brightness, accepted", 4_000, arguments::brightness::accepted),
    ("brightness, one wrong argument", 9_000, arguments::brightness::one_wrong),
    ("brightness, several wrong arguments", 20_000, arguments::brightness::several_wrong),
    ("truncate, accepted", 4_000, arguments::truncate::accepted),
    ("truncate, one wrong argument", 9_000, arguments::truncate::one_wrong),
    ("truncate, several wrong arguments", 20_000, arguments::truncate::several_wrong),
    ("write, accepted", 4_000, arguments::write::accepted),
    ("write, one wrong argument", 9_000, arguments::write::one_wrong),
    ("write, several wrong arguments", 20_000, arguments::write::several_wrong),
    ("write, every stream buffer", 200, arguments::every_stream_buffer),
    ("every size to 40 by 40", 1_600, arguments::every_size),
    ("undo and show_level, greatest growth", 40, arguments::greatest_growth),
    ("every region of 4 by 4", 1 << 16, arguments::every_small_region),
    ("every region of 5 by 3", 1 << 15, arguments::every_odd_region),
    ("every plane of 4 by 2", 1 << 16, arguments::every_small_plane),
    ("every row and column of 7", 1 << 14, arguments::every_odd_line),
    ("every row and column to 6", 1 << 12, arguments::every_short_line),
    ("joins, sides at the limits", 12, joins::sides),
    ("joins, buffer lengths", 200, joins::buffer_lengths),
    ("joins, every byte above 1", 200, joins::every_wrong_byte),
    ("joins, every length to 1,000", 1_000, joins::every_length),
    ("joins, every two regions of 3 by 2", 1 << 12, joins::every_two_regions),
    ("joins, every size to 20 by 20 with every kernel and J", 400, joins::every_setting),
    ("joins, a rectangle at a time", 600, joins::a_rectangle_at_a_time),
    ("joins, large pictures", 32, joins::large),
    ("brightness, sides at the limits", 12, brightness::sides),
    ("brightness, buffer lengths", 200, brightness::buffer_lengths),
    ("brightness, every byte above 1", 200, brightness::every_wrong_byte),
    ("brightness, faults together", 64 * 60, brightness::faults),
    ("brightness, result arrays", 200, brightness::result_lengths),
    ("brightness, every length to 1,000", 1_000, brightness::every_length),
    ("brightness, every size to 20 by 20", 400, brightness::every_size),
    ("brightness, every region of 5 by 3", 1 << 15, brightness::every_region),
    ("brightness, sums around 32 bits", 200, brightness::sums_around_32_bits),
    ("brightness, the largest picture", 7, brightness::largest),
    ("brightness, large pictures", 32, brightness::large),
    ("brightness, quotient and remainder", 4_000, brightness_laws::division),
    ("brightness, samples outside the region", 2_000, brightness_laws::samples_outside),
    ("brightness, regions apart", 2_000, brightness_laws::added),
    ("brightness, regions apart in large pictures", 32, brightness_laws::large_added),
    ("brightness, every region of 5 by 3 and the rest", 1 << 15, brightness_laws::every_region_added),
    ("brightness, cut streams", 600, brightness_laws::cut_streams),
    ("brightness, cut streams of large pictures", 32, brightness_laws::large_cut_streams),
    ("levels, every size to 20 by 20 with every kernel, J and r", 400, levels::every_setting),
    ("levels, large pictures", 32, levels::large),
    ("levels, buffer lengths", 200, levels::buffer_lengths),
    ("levels, every coefficient too large", 200, levels::every_wrong_coefficient),
    ("levels, planes that agree on the mask", 1_000, levels::agreeing_planes),
    ("levels, cut streams of pictures", 300, levels::cut_pictures),
    ("levels, cut streams of any planes", 600, levels::cut_planes),
    ("streams, whole", 4_000, streams::whole),
    ("streams, result arrays", 60, streams::result_lengths),
    ("streams, buffer lengths", 200, streams::buffer_lengths),
    ("streams, lengths of the area's buffers", 200, streams::area_lengths),
    ("streams, every cut", 300, streams::every_cut),
    ("streams, every truncation", 300, streams::every_truncation),
    ("streams, what arrived", 300, streams::what_arrived),
    ("streams, length fields", 10_000, streams::length_fields),
    ("streams, every byte changed", 300, streams::every_byte),
    ("streams, several header bytes", 40_000, streams::several_header_bytes),
    ("streams, rectangles of the header", 10_000, streams::header_rectangles),
    ("streams, more planes than needed", 4_000, streams::more_planes),
    ("streams, filling bits and further bytes", 500, streams::filling),
    ("streams, random bytes", 60, streams::random_bytes),
    ("streams, every short body", 1 << 16, streams::every_short_body),
    ("chains, every length", 900, chains::every_length),
    ("chains, some lengths", 300, chains::some_lengths),
    ("chains, large pictures", 32, chains::large),
    ("chains, large pictures with few marks, or all but few", 24, chains::few),
];

/// The numbers that each entry returns; each must come up in some case.
const RETURNED: [(&str, &[u64]); 16] = [
    ("region", &[0, 4, 7, 8, 5]),
    ("mask", &[0, 1, 2, 4, 5, 9]),
    ("join", &[0, 4, 5, 9]),
    ("transform", &[0, 1, 2, 3, 4, 5, 6]),
    ("undo", &[0, 1, 2, 4, 5, 10]),
    ("show", &[0, 3, 4, 5]),
    ("show_level", &[0, 1, 2, 17, 3, 4, 5, 10]),
    ("brightness", &[0, 4, 5, 9, 19]),
    ("truncate", &[0, 3, 4, 5, 9, 10]),
    ("write", &[0, 1, 2, 3, 4, 7, 8, 5, 10, 11]),
    ("read", &[0, 12, 13, 1, 2, 3, 4, 7, 8, 14, 5, 16]),
    ("show_stream", &[0, 12, 13, 1, 2, 17, 3, 4, 7, 8, 14, 5, 16]),
    ("cut", &[0, 12, 13, 1, 2, 3, 4, 7, 8, 14, 5, 16, 15, 11]),
    ("body", &[0, 12, 13]),
    ("header", &[0, 12, 13, 1, 2, 3, 4, 7, 8, 14]),
    ("arrived", &[0, 12]),
];

type Seen = BTreeSet<(&'static str, u64)>;

/// Runs one group and prints its line; true if it passed.
fn run(entry: &Entry, case: Option<u64>, seen: &mut Seen) -> bool {
    let (name, cases, one) = *entry;
    // Printed first, so that the group is known should the library abort.
    print!("{name}: ");
    io::stdout().flush().expect("standard output");
    let mut group = Group::new(name);
    match case {
        Some(case) => group.run(case..case + 1, one),
        None => group.run(0..cases, one),
    }
    println!("{}", group.report());
    let passed = !group.failed();
    seen.extend(group.seen());
    passed
}

/// That the cases reach every number of every entry.
fn every_number_seen(seen: &Seen) -> bool {
    let mut count = 0;
    let mut missing = 0;
    for (entry, numbers) in RETURNED {
        for &number in numbers {
            count += 1;
            if !seen.contains(&(entry, number)) {
                missing += 1;
                println!("FAILED: no case of {entry} returned {number}");
            }
        }
    }
    println!("every number of every entry returned: {count} numbers, {missing} missing");
    missing == 0
}

fn main() -> ExitCode {
    let name = env::args().nth(1);
    let case = env::args()
        .nth(2)
        .map(|text| text.parse().expect("a case number"));
    abort::watch();
    println!("seed {}", group::SEED);
    let mut seen = Seen::new();
    let mut verdicts = Vec::new();
    for entry in &GROUPS {
        if name.is_none() || name.as_deref() == Some(entry.0) {
            verdicts.push(run(entry, case, &mut seen));
        }
    }
    if name.is_none() {
        verdicts.push(every_number_seen(&seen));
    }
    let passed = verdicts.iter().filter(|&&passed| passed).count();
    let failed = verdicts.len() - passed;
    println!("{passed} passed, {failed} failed");
    if failed > 0 || passed == 0 {
        return ExitCode::FAILURE;
    }
    ExitCode::SUCCESS
}
