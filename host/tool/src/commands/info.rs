//! info: tells what a stream says of itself, and how much of it arrived.

use super::{each, read_stream};
use crate::args::Info;
use crate::cable::Cable;
use crate::failure::{Failure, Status};
use crate::input;
use crate::jobs;
use crate::messages::Messages;
use crate::output;
use crate::report::{self, Told};
use std::path::{Path, PathBuf};

pub fn run(args: &Info, quiet: bool) -> Result<Status, Failure> {
    let inputs: Vec<&Path> = args.files.iter().map(PathBuf::as_path).collect();
    jobs::check_standard_input(&inputs)?;
    let (messages, cable) = (Messages { quiet, data: false }, args.cable.cable());
    let status = each(&inputs, |path| one(path, args.json, &cable, &messages));
    if !args.json {
        messages.report(&cable.rule())?;
    }
    Ok(status)
}

fn one(path: &Path, json: bool, cable: &Cable, messages: &Messages) -> Result<Status, Failure> {
    let stream = read_stream(path, messages)?;
    let reading = stream.read().map_err(|failure| failure.of(&input::name(path)))?;
    let body = stream.body().map_err(|failure| failure.of(&input::name(path)))?;
    let name = path.display().to_string();
    let told = Told { name: &name, stream: &stream, reading: &reading, body, cable };
    match json {
        true => output::write(Path::new("-"), format!("{}\n", report::json(&told)).as_bytes())?,
        false => messages.report(&(report::text(&told) + "\n"))?,
    }
    Ok(report::status(&stream, &reading))
}
