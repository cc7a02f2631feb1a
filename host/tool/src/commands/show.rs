//! show: makes a picture of a stream.

use super::{each, messages, read_stream, with_ending, write_picture};
use crate::args::Show;
use crate::codec::{self, Reading, Stream};
use crate::failure::{Failure, Status};
use crate::frames;
use crate::input;
use crate::jobs::{self, Job};
use crate::messages::Messages;
use crate::output;
use crate::rectangles::{self, Rectangle};
use crate::report;
use picture::{Format, Picture};

pub fn run(args: &Show, quiet: bool) -> Result<Status, Failure> {
    let format = args.format.map(Format::from);
    let ending = if format == Some(Format::Png) { ".png" } else { ".pgm" };
    let jobs = jobs::jobs(&args.files, args.into.as_deref(), &[], |input| with_ending(input, ending))?;
    let messages = messages(quiet, &jobs);
    Ok(each(&jobs, |job| one(job, format, args, &messages)))
}

fn one(job: &Job, format: Option<Format>, args: &Show, messages: &Messages) -> Result<Status, Failure> {
    let name = input::name(&job.input);
    let stream = read_stream(&job.input, messages)?;
    let (reading, mut picture) = stream.show(args.level).map_err(|failure| failure.of(&name))?;
    if args.frames {
        match why_no_frame(&stream, &reading) {
            Some(reason) => messages.note(&format!("{name}: {reason}, so that no frame is drawn")),
            None => frame(&mut picture, &stream.setting.rectangles, args.level)?,
        }
    }
    let format = format.or_else(|| Format::of_name(&job.output)).unwrap_or(Format::Pgm);
    write_picture(&job.output, &picture, format, messages)?;
    let arrival = report::arrival_at(args.level, &stream, &reading);
    messages.report(&format!("{}: shown from {name}; {arrival}", output::name(&job.output)))?;
    Ok(report::status(&stream, &reading))
}

/// Why there is nothing to frame, where that is so.
fn why_no_frame(stream: &Stream, reading: &Reading) -> Option<&'static str> {
    match (stream.setting.rectangles.is_empty(), reading.whole) {
        (true, _) => Some("no rectangle is marked"),
        (false, false) => Some("not every marked bit arrived"),
        (false, true) => None,
    }
}

/// Frames around the places that belong to the rectangles in a picture at a level.
fn frame(picture: &mut Picture, rectangles: &[Rectangle], level: usize) -> Result<(), Failure> {
    let places = rectangles::at_level(rectangles, level);
    let region = codec::region(&places, picture.width, picture.height)?;
    frames::draw(picture, &places, &region);
    Ok(())
}
