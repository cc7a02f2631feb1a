//! join: joins regions, or masks, and rectangles.

use super::{marked_rectangles, read_bitmap, write_bitmap};
use crate::args::Join;
use crate::causes;
use crate::codec;
use crate::failure::{meaning, Failure, Status};
use crate::input;
use crate::jobs;
use crate::messages::Messages;
use crate::output;
use crate::rectangles::Rectangle;
use crate::report;
use crate::words;
use picture::Bitmap;
use std::path::{Path, PathBuf};

pub fn run(args: &Join, quiet: bool) -> Result<Status, Failure> {
    let (first, others, output) = files(args)?;
    let inputs = [first].into_iter().chain(others).chain(&args.marked.rects);
    let inputs: Vec<&Path> = inputs.map(PathBuf::as_path).collect();
    jobs::check_standard_input(&inputs)?;
    jobs::check_same(&inputs, output)?;
    let messages = Messages { quiet, data: output::is_standard_output(output) };
    let mut joined = join_all(first, others, &messages)?;
    let mut parts = words::count(1 + others.len(), "bitmap");
    if marked(args) {
        let rectangles = marked_rectangles(&args.marked)?;
        joined = with_rectangles(&joined, &rectangles).map_err(|failure| failure.of(&input::name(first)))?;
        parts += &format!(" and {}", words::count(rectangles.len(), "rectangle"));
    }
    write_bitmap(output, &joined, &messages)?;
    messages.report(&format!(
        "{}: {parts} joined, {}; {} inside",
        output::name(output),
        report::extent((joined.width, joined.height)),
        report::inside(&joined),
    ))?;
    Ok(Status::Done)
}

/// Whether rectangles are joined too; a file of them may hold none.
fn marked(args: &Join) -> bool {
    !args.marked.rect.is_empty() || args.marked.rects.is_some()
}

/// The first bitmap, the others and the output.
fn files(args: &Join) -> Result<(&PathBuf, &[PathBuf], &PathBuf), Failure> {
    match &args.files[..] {
        [first, others @ .., output] if !others.is_empty() || marked(args) => Ok((first, others, output)),
        _ => Err(Failure::usage(
            "at least two parts are joined, two bitmaps or a bitmap and rectangles; behind them stands the output",
        )),
    }
}

fn join_all(first: &Path, others: &[PathBuf], messages: &Messages) -> Result<Bitmap, Failure> {
    let mut joined = read_bitmap(first, messages)?;
    for other in others {
        let next = read_bitmap(other, messages)?;
        let sizes = || causes::of_sizes(&joined, &next, &input::name(other));
        joined = codec::join(&joined, &next, sizes).map_err(|failure| failure.of(&input::name(first)))?;
    }
    Ok(joined)
}

/// The join of a bitmap with the region of rectangles.
fn with_rectangles(bitmap: &Bitmap, rectangles: &[Rectangle]) -> Result<Bitmap, Failure> {
    let Bitmap { width, height, .. } = *bitmap;
    let region = Bitmap { width, height, samples: codec::region(rectangles, width, height)? };
    codec::join(bitmap, &region, || meaning(5).to_string())
}
