//! compare: compares two pictures sample by sample.

use super::{marked_rectangles, read_picture, read_stream};
use crate::args::Compare;
use crate::codec::{self, Setting};
use crate::compare::{differences, Differences};
use crate::failure::{Failure, Status};
use crate::input;
use crate::jobs;
use crate::messages::Messages;
use crate::report;
use crate::words;
use picture::Picture;
use std::path::{Path, PathBuf};

pub fn run(args: &Compare, quiet: bool) -> Result<Status, Failure> {
    let others = [&args.marked.rects, &args.stream].into_iter().flatten();
    let inputs: Vec<&Path> = [&args.a, &args.b].into_iter().chain(others).map(PathBuf::as_path).collect();
    jobs::check_standard_input(&inputs)?;
    let messages = Messages { quiet, data: false };
    let ((a, _), (b, _)) = (read_picture(&args.a, &messages)?, read_picture(&args.b, &messages)?);
    if (a.width, a.height) != (b.width, b.height) {
        let text = format!("{} samples, where {} has {}", extent(&b), input::name(&args.a), extent(&a));
        return Err(Failure::input_output(text).of(&input::name(&args.b)));
    }
    if a.top != b.top {
        messages.note(&format!("the maximum values differ, {} and {}; samples are compared as numbers", a.top, b.top));
    }
    let region = region(args, &a, &messages)?;
    let found = differences(&a.samples, &b.samples, &region, 1, a.width);
    messages.report(&text(&found))?;
    Ok(if found.compared > 0 && found.count == 0 { Status::Done } else { Status::NotExact })
}

fn extent(picture: &Picture) -> String {
    format!("{} by {}", picture.width, picture.height)
}

/// 1 for each sample that is compared, else 0.
fn region(args: &Compare, picture: &Picture, messages: &Messages) -> Result<Vec<u8>, Failure> {
    if let Some(path) = &args.stream {
        return region_of_stream(path, picture, messages);
    }
    if args.marked.rect.is_empty() && args.marked.rects.is_none() {
        return Ok(vec![1; picture.samples.len()]);
    }
    let rectangles = marked_rectangles(&args.marked)?;
    codec::region(&rectangles, picture.width, picture.height).map_err(|failure| failure.of(&input::name(&args.a)))
}

fn region_of_stream(path: &Path, picture: &Picture, messages: &Messages) -> Result<Vec<u8>, Failure> {
    let name = input::name(path);
    let stream = read_stream(path, messages)?;
    let reading = stream.read().map_err(|failure| failure.of(&name))?;
    let setting = &stream.setting;
    if (setting.width, setting.height) != (picture.width, picture.height) {
        return Err(Failure::input_output(other_size(setting, picture)).of(&name));
    }
    messages.report(&format!("{name}: {}", report::arrival(&stream, &reading)))?;
    codec::region(&setting.rectangles, setting.width, setting.height).map_err(|failure| failure.of(&name))
}

/// Which sizes differ, and whether the pictures are small ones of the stream.
fn other_size(setting: &Setting, picture: &Picture) -> String {
    let level = (1..=setting.levels).find(|&level| setting.size(level) == (picture.width, picture.height));
    let advice = match level {
        Some(level) => {
            format!(", the size of level {level}: --stream compares full pictures, in small ones give --rect")
        }
        None => String::new(),
    };
    let Setting { width, height, .. } = setting;
    format!("{width} by {height} samples, where the pictures have {}{advice}", extent(picture))
}

fn text(found: &Differences) -> String {
    match &found.first {
        None if found.compared == 0 => "there is no rectangle: nothing was compared".to_string(),
        None => format!("no difference in {}", words::count(found.compared, "sample")),
        Some(place) => format!(
            "{} of {} {}; the first one at x {} y {}: {} and {}; largest difference {}",
            words::size(found.count),
            words::count(found.compared, "sample"),
            if found.count == 1 { "differs" } else { "differ" },
            place.x,
            place.y,
            place.left,
            place.right,
            found.largest
        ),
    }
}
