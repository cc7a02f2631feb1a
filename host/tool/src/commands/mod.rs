//! The commands.

pub mod brightness;
pub mod compare;
pub mod cut;
pub mod encode;
pub mod info;
pub mod join;
pub mod mask;
pub mod show;

use crate::args::Marked;
use crate::causes;
use crate::codec::Stream;
use crate::failure::{Failure, Status};
use crate::input;
use crate::jobs::Job;
use crate::messages::{tell, Messages};
use crate::output;
use crate::rectangles::{self, Rectangle};
use picture::{bitmap, Bitmap, Format, Picture};
use std::ffi::OsStr;
use std::path::{Path, PathBuf};

/// Does each item in turn. A failure at one is told and does not stop the others; the worst status counts.
fn each<T>(items: &[T], mut work: impl FnMut(&T) -> Result<Status, Failure>) -> Status {
    let done = items.iter().map(|item| {
        work(item).unwrap_or_else(|failure| {
            tell(&failure.to_string());
            failure.status
        })
    });
    done.max().unwrap_or(Status::Done)
}

/// What may be said where a command has these outputs.
fn messages(quiet: bool, jobs: &[Job]) -> Messages {
    Messages { quiet, data: jobs.iter().any(|job| output::is_standard_output(&job.output)) }
}

/// A file's name with another ending.
fn with_ending(path: &Path, ending: &str) -> Option<PathBuf> {
    let mut name = path.file_stem()?.to_os_string();
    name.push(OsStr::new(ending));
    Some(PathBuf::from(name))
}

/// A picture, and the format of its file.
fn read_picture(path: &Path, messages: &Messages) -> Result<(Picture, Format), Failure> {
    let file = input::read(path)?;
    Ok((picture_of(path, &file, messages)?, Format::of_file(&file).unwrap_or(Format::Pgm)))
}

/// The picture that the bytes of a file are.
fn picture_of(path: &Path, file: &[u8], messages: &Messages) -> Result<Picture, Failure> {
    taken(path, picture::parse(file), picture::odd(file), messages)
}

/// A bitmap: a region or a mask.
fn read_bitmap(path: &Path, messages: &Messages) -> Result<Bitmap, Failure> {
    let file = input::read(path)?;
    taken(path, bitmap::parse(&file), bitmap::odd(&file), messages)
}

/// What was parsed of a file, where it was; what is odd of it is said.
fn taken<T>(path: &Path, parsed: Result<T, String>, odd: Option<String>, messages: &Messages) -> Result<T, Failure> {
    let found = parsed.map_err(|problem| Failure::input_output(problem).of(&input::name(path)))?;
    if let Some(odd) = odd {
        messages.note(&format!("{}: {odd}", input::name(path)));
    }
    Ok(found)
}

/// A stream's file, whole or what a call that broke off has left of it. Its header is accepted.
fn read_stream(path: &Path, messages: &Messages) -> Result<Stream, Failure> {
    stream_of(path, input::read(path)?, messages)
}

/// The stream that the bytes of a file are.
fn stream_of(path: &Path, bytes: Vec<u8>, messages: &Messages) -> Result<Stream, Failure> {
    let advice = causes::advice(&bytes);
    let stream = Stream::of(bytes).map_err(|failure| failure.with(advice).of(&input::name(path)))?;
    messages.progress(stream.setting.area(), "reading the stream");
    Ok(stream)
}

/// Writes a picture, and says what its format cannot hold.
pub fn write_picture(path: &Path, picture: &Picture, format: Format, messages: &Messages) -> Result<(), Failure> {
    let bytes = picture::format(picture, format).map_err(|text| Failure::input_output(text).of(&output::name(path)))?;
    output::write(path, &bytes)?;
    if let Some(lost) = picture::lost(picture, format) {
        messages.note(&format!("{}: {lost}", output::name(path)));
    }
    Ok(())
}

/// Writes a bitmap, and says where its name promises another format.
fn write_bitmap(path: &Path, bitmap: &Bitmap, messages: &Messages) -> Result<(), Failure> {
    let bytes = bitmap::format(bitmap).map_err(|text| Failure::input_output(text).of(&output::name(path)))?;
    output::write(path, &bytes)?;
    if Format::of_name(path) == Some(Format::Png) {
        messages.note(&format!(
            "{}: a PBM file, whatever its name says; 'pnmtopng IN > OUT.png' (netpbm) makes a PNG file of it",
            output::name(path)
        ));
    }
    Ok(())
}

/// The rectangles of the command line, and behind them those of the file.
fn marked_rectangles(marked: &Marked) -> Result<Vec<Rectangle>, Failure> {
    let mut found = marked.rect.clone();
    if let Some(path) = &marked.rects {
        let text = input::read(path)?;
        let listed = rectangles::listed(&String::from_utf8_lossy(&text));
        found.extend(listed.map_err(|problem| Failure::input_output(problem).of(&input::name(path)))?);
    }
    Ok(found)
}
