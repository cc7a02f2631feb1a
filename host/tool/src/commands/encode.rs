//! encode: makes a stream of a picture.

use super::{each, marked_rectangles, messages, read_picture, with_ending};
use crate::args::Encode;
use crate::cable::Cable;
use crate::causes;
use crate::codec::{self, Setting, Written};
use crate::failure::{Failure, Status};
use crate::input;
use crate::jobs::{self, Job};
use crate::messages::Messages;
use crate::output;
use crate::rectangles::Rectangle;
use crate::words;
use picture::{Format, Picture};

/// What pictures are encoded under. Where no depth is given, the picture's maximum value decides.
pub struct Choice {
    pub rectangles: Vec<Rectangle>,
    pub kernel: usize,
    pub levels: usize,
    pub depth: Option<usize>,
}

pub fn run(args: &Encode, quiet: bool) -> Result<Status, Failure> {
    let others: Vec<_> = args.marked.rects.as_deref().into_iter().collect();
    let jobs = jobs::jobs(&args.files, args.into.as_deref(), &others, |input| with_ending(input, ".stream"))?;
    let choice = Choice {
        rectangles: marked_rectangles(&args.marked)?,
        kernel: args.transform.kernel,
        levels: args.transform.levels,
        depth: args.depth,
    };
    let (messages, cable) = (messages(quiet, &jobs), args.cable.cable());
    let status = each(&jobs, |job| one(job, &choice, &cable, &messages));
    Ok(status)
}

fn one(job: &Job, choice: &Choice, cable: &Cable, messages: &Messages) -> Result<Status, Failure> {
    let name = input::name(&job.input);
    let (picture, format) = read_picture(&job.input, messages)?;
    let written = written(&picture, format, choice, messages).map_err(|failure| failure.of(&name))?;
    output::write(&job.output, &written.bytes)?;
    let depth = choice.depth.unwrap_or(picture.depth());
    if u64::from(picture.top) != causes::top(depth) {
        messages.note(&format!(
            "{name}: the maximum value is {}; a stream has the depth alone, {}, so that shown pictures have {}",
            words::grouped(picture.top.into()),
            words::count(depth, "bit"),
            words::grouped(causes::top(depth))
        ));
    }
    let rectangles = match choice.rectangles.len() {
        0 => "no rectangle is marked".to_string(),
        count => words::count(count, "rectangle"),
    };
    messages.report(&format!(
        "{}: {}; {rectangles}; region mark {}; {} of {} marked\n{}",
        output::name(&job.output),
        cable.length(written.bytes.len()),
        cable.length(written.region_mark),
        words::size(written.marks),
        words::count(picture.samples.len(), "coefficient"),
        cable.rule(),
    ))?;
    Ok(Status::Done)
}

/// The stream of a picture, whose file has a format. Every refusal that needs no work is tested before any work is
/// announced.
pub fn written(picture: &Picture, format: Format, choice: &Choice, messages: &Messages) -> Result<Written, Failure> {
    let setting = Setting {
        kernel: choice.kernel,
        levels: choice.levels,
        depth: choice.depth.unwrap_or(picture.depth()),
        width: picture.width,
        height: picture.height,
        rectangles: choice.rectangles.clone(),
    };
    let number = codec::refusal(&setting);
    if number != 0 {
        return Err(Failure::refused(number, &causes::of_picture(number, &setting, picture, format, choice.depth)));
    }
    let large = causes::large_sample(picture, format, setting.depth);
    if large.is_none() {
        messages.progress(picture.samples.len(), "transforming");
    }
    let plane = codec::transform(&setting, &picture.samples, large)?;
    messages.progress(picture.samples.len(), "writing the stream");
    codec::write(&setting, &plane)
}
