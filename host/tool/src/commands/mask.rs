//! mask: makes the mask of a region.

use super::{read_bitmap, write_bitmap};
use crate::args::{Mask, Transform};
use crate::codec;
use crate::failure::{Failure, Status};
use crate::input;
use crate::jobs;
use crate::messages::Messages;
use crate::output;
use crate::report;
use crate::words;

pub fn run(args: &Mask, quiet: bool) -> Result<Status, Failure> {
    jobs::check_same(&[&args.input], &args.output)?;
    let Transform { kernel, levels } = args.transform;
    let messages = Messages { quiet, data: output::is_standard_output(&args.output) };
    let name = input::name(&args.input);
    let region = read_bitmap(&args.input, &messages)?;
    let mask = codec::mask(kernel, levels, &region).map_err(|failure| failure.of(&name))?;
    write_bitmap(&args.output, &mask, &messages)?;
    messages.report(&format!(
        "{}: mask of {name}, {}; {} inside; {} of {} marked; kernel {}, {}",
        output::name(&args.output),
        report::extent((region.width, region.height)),
        report::inside(&region),
        words::size(mask.inside()),
        words::count(mask.samples.len(), "coefficient"),
        report::kernel_name(kernel),
        words::count(levels, "level"),
    ))?;
    Ok(Status::Done)
}
