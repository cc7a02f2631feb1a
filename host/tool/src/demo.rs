//! The demonstration: a panel shot, cut at several lengths, each shown and compared with what was captured.

use crate::cable::Cable;
use crate::codec::{self, Stream, Written};
use crate::commands::encode::{written, Choice};
use crate::commands::write_picture;
use crate::compare::differences;
use crate::failure::{meaning, Failure, Status};
use crate::input::{self, is_standard};
use crate::messages::Messages;
use crate::output;
use crate::panel;
use crate::rectangles;
use picture::{Format, Picture};
use std::path::Path;

const KERNEL: usize = 3;
const LEVELS: usize = 5;

/// The levels at which one cut is shown, the smaller pictures first.
const SHOWN: [usize; 4] = [3, 2, 1, 0];

/// The parts of the demonstration that every row of its table needs.
struct Shot<'a> {
    folder: &'a Path,
    panel: Picture,
    region: Vec<u8>,
    stream: Stream,
    region_mark: usize,
    marks: usize,
    cable: Cable,
    messages: Messages,
}

pub fn run(folder: &Path, quiet: bool) -> Result<Status, Failure> {
    if is_standard(folder) {
        return Err(Failure::usage("demo takes no '-': it needs the name of a folder"));
    }
    let messages = Messages { quiet, data: false };
    output::make_folder(folder)?;
    let panel = panel::draw();
    write_picture(&folder.join("panel.pgm"), &panel, Format::Pgm, &messages)?;
    let region = codec::region(&panel::rectangles(), panel.width, panel.height)?;
    let Written { bytes, region_mark, marks } = written(&panel, Format::Pgm, &choice(KERNEL), &messages)?;
    output::write(&folder.join("panel.stream"), &bytes)?;
    let (stream, cable) = (Stream::of(bytes)?, Cable::default());
    let shot = Shot { folder, panel, region, stream, region_mark, marks, cable, messages };
    messages.report(&heading(&shot))?;
    for (label, length) in lengths(&shot) {
        messages.report(&row(&shot, &label, length)?)?;
    }
    messages.report(
        "* below the region mark: the cutter refuses it (15); what a call that breaks off there leaves is shown",
    )?;
    messages.report(&level_table(&shot)?)?;
    messages.report(&kernel_table(&shot)?)?;
    messages.report(&format!("pictures and streams are in {}", folder.display()))?;
    Ok(Status::Done)
}

fn choice(kernel: usize) -> Choice {
    Choice { rectangles: panel::rectangles(), kernel, levels: LEVELS, depth: None }
}

fn heading(shot: &Shot) -> String {
    let inside = shot.region.iter().filter(|&&mark| mark == 1).count();
    format!(
        "operator panel, {} by {} samples; {} rectangles over part numbers and lamps, {inside} samples\n\
         kernel {KERNEL} ({}), J {LEVELS}; {} of {} coefficients marked; {}\n\n\
         {:<12} {:>7} {:>8} {:>3} {:>21} {:>15} {:>13}",
        shot.panel.width,
        shot.panel.height,
        panel::rectangles().len(),
        codec::KERNELS[KERNEL],
        shot.marks,
        shot.region.len(),
        shot.cable.rule(),
        "cut at",
        "bytes",
        "seconds",
        "q",
        "region",
        "largest outside",
        "mean outside",
    )
}

/// The lengths to cut at, with their names: the region mark, 1, 2, 4, 8 ... seconds, and all, in ascending order.
fn lengths(shot: &Shot) -> Vec<(String, usize)> {
    let (total, a_second) = (shot.stream.bytes.len(), (shot.cable.baud / shot.cable.bits_per_byte) as usize);
    let mut found = vec![("region mark".to_string(), shot.region_mark)];
    let mut time = 1;
    while time * a_second < total {
        found.push((format!("{time} s"), time * a_second));
        time *= 2;
    }
    found.push(("all".to_string(), total));
    found.sort_by_key(|&(_, length)| length);
    found
}

/// Cuts, shows and compares at one length, and writes the stream and the picture. Below the region mark, to which the
/// cutter does not cut, the stream is what a call that breaks off there leaves.
fn row(shot: &Shot, label: &str, length: usize) -> Result<String, Failure> {
    let (bytes, label) = match length < shot.region_mark {
        true => (shot.stream.bytes[..length].to_vec(), format!("{label} *")),
        false => (shot.stream.cut(length, || meaning(15).to_string())?, label.to_string()),
    };
    let stream = Stream::of(bytes)?;
    let (reading, picture) = stream.show(0)?;
    let name = cut_name(length);
    output::write(&shot.folder.join(format!("{name}.stream")), &stream.bytes)?;
    write_picture(&shot.folder.join(format!("{name}.pgm")), &picture, Format::Pgm, &shot.messages)?;
    let compared = |wanted| differences(&shot.panel.samples, &picture.samples, &shot.region, wanted, picture.width);
    let (inside, outside) = (compared(1), compared(0));
    let region = match (inside.count, reading.whole) {
        (0, true) => "exact".to_string(),
        (0, false) => "not whole".to_string(),
        (count, _) => format!("{count} samples differ"),
    };
    Ok(format!(
        "{label:<12} {length:>7} {:>8.3} {:>3} {region:>21} {:>15} {:>13.3}",
        shot.cable.enough(length, 3),
        reading.missing,
        outside.largest,
        outside.mean(),
    ))
}

/// The name of a cut's files, without their ending.
fn cut_name(length: usize) -> String {
    format!("cut-{length:07}")
}

/// The cut to the region mark at several levels.
fn level_table(shot: &Shot) -> Result<String, Failure> {
    let cut = Stream::of(shot.stream.cut(shot.region_mark, || meaning(15).to_string())?)?;
    let mut text = format!(
        "\nthe cut at the region mark at several levels, its region beside the whole stream's at the same level\n\n\
         {:<12} {:>12} {:>21}  file\n",
        "level", "size", "region"
    );
    for level in SHOWN {
        text += &level_row(shot, &cut, level)?;
    }
    Ok(text + &full_picture(shot)?)
}

/// The name of the file with the cut's picture at a level.
fn level_file(shot: &Shot, level: usize) -> String {
    format!("{}-level-{level}.pgm", cut_name(shot.region_mark))
}

/// Shows the cut and the whole stream at a level, compares the places of the rectangles, and writes the cut's picture.
fn level_row(shot: &Shot, cut: &Stream, level: usize) -> Result<String, Failure> {
    let ((_, picture), (_, whole)) = (cut.show(level)?, shot.stream.show(level)?);
    let file = level_file(shot, level);
    write_picture(&shot.folder.join(&file), &picture, Format::Pgm, &shot.messages)?;
    let places = rectangles::at_level(&panel::rectangles(), level);
    let region = codec::region(&places, picture.width, picture.height)?;
    let region = match differences(&whole.samples, &picture.samples, &region, 1, picture.width).count {
        0 => "alike".to_string(),
        count => format!("{count} places differ"),
    };
    let size = format!("{} by {}", picture.width, picture.height);
    Ok(format!("{level:<12} {size:>12} {region:>21}  {file}\n"))
}

/// Whether level 0 is the picture that was written for the same cut before.
fn full_picture(shot: &Shot) -> Result<String, Failure> {
    let (now, before) = (level_file(shot, 0), format!("{}.pgm", cut_name(shot.region_mark)));
    let same = input::read(&shot.folder.join(&now))? == input::read(&shot.folder.join(&before))?;
    Ok(format!("{now} is {} {before}", if same { "the same picture as" } else { "another picture than" }))
}

/// The same panel under each kernel: what the region and the whole stream take.
fn kernel_table(shot: &Shot) -> Result<String, Failure> {
    let mut text = format!(
        "\n{:<12} {:>7} {:>12} {:>8} {:>8} {:>8}\n",
        "kernel", "marks", "region mark", "seconds", "all", "seconds"
    );
    for (kernel, name) in codec::KERNELS.iter().enumerate() {
        let written = written(&shot.panel, Format::Pgm, &choice(kernel), &shot.messages)?;
        text += &format!(
            "{:<12} {:>7} {:>12} {:>8.3} {:>8} {:>8.3}\n",
            format!("{kernel} {name}"),
            written.marks,
            written.region_mark,
            shot.cable.enough(written.region_mark, 3),
            written.bytes.len(),
            shot.cable.enough(written.bytes.len(), 3),
        );
    }
    Ok(text)
}
