//! cut: cuts a stream to a length.

use super::{each, messages, read_stream};
use crate::args::Cut;
use crate::cable::Cable;
use crate::causes;
use crate::codec::{Reading, Stream};
use crate::failure::{Failure, Status};
use crate::input;
use crate::jobs::{self, Job};
use crate::messages::Messages;
use crate::output;
use crate::report;
use crate::words;
use std::path::PathBuf;

pub fn run(args: &Cut, quiet: bool) -> Result<Status, Failure> {
    let jobs = jobs::jobs(&args.files, args.into.as_deref(), &[], |input| input.file_name().map(PathBuf::from))?;
    let (messages, cable) = (messages(quiet, &jobs), args.cable.cable());
    Ok(each(&jobs, |job| one(job, args, &cable, &messages)))
}

fn one(job: &Job, args: &Cut, cable: &Cable, messages: &Messages) -> Result<Status, Failure> {
    let name = input::name(&job.input);
    let stream = read_stream(&job.input, messages)?;
    let (length, cut, left) = shortened(&stream, args, cable).map_err(|failure| failure.of(&name))?;
    output::write(&job.output, &cut.bytes)?;
    let broken_off = match stream.bytes.len() < stream.sent {
        true => format!(", of which {}", report::bytes_arrived(&stream)),
        false => String::new(),
    };
    messages.report(&format!(
        "{}: {} of {}, {:.3} s, from {name}{broken_off}; {}\n{}",
        output::name(&job.output),
        words::size(length),
        words::count(stream.bytes.len(), "byte"),
        cable.enough(length, 3),
        report::bits_arrived(&cut, &left),
        cable.rule(),
    ))?;
    Ok(report::status(&cut, &left))
}

/// The length that was wanted, the stream cut to it, and what that holds.
fn shortened(stream: &Stream, args: &Cut, cable: &Cable) -> Result<(usize, Stream, Reading), Failure> {
    let length = match (args.length, args.seconds) {
        (Some(length), _) => length,
        (None, Some(time)) => cable.bytes_in(time).min(stream.bytes.len()),
        // Where the region mark is not known, it is 0, which is refused.
        (None, None) => stream.read()?.region_mark,
    };
    let cut = Stream::of(stream.cut(length, || causes::of_cut(length, stream, cable))?)?;
    let left = cut.read()?;
    Ok((length, cut, left))
}
