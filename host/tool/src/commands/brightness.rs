//! brightness: measures how bright rectangles, or a bitmap's region, of a stream or of a picture are.

use super::{marked_rectangles, picture_of, read_bitmap, stream_of};
use crate::args::Brightness;
use crate::causes;
use crate::codec::{self, Figures, Reading, Stream};
use crate::failure::{meaning, Failure, Status};
use crate::input;
use crate::jobs;
use crate::messages::Messages;
use crate::output;
use crate::rectangles::Rectangle;
use crate::report;
use crate::words;
use picture::{Bitmap, Format, Picture};
use std::path::{Path, PathBuf};
use std::slice;

/// What is measured.
struct Shot {
    name: String,
    picture: Picture,
    /// Where the picture is shown from a stream: that stream, and what arrived of it.
    source: Option<Source>,
}

struct Source {
    stream: Stream,
    reading: Reading,
    /// 1 for each sample that is as captured unless the link changed a bit, else 0.
    exact: Vec<u8>,
}

/// One region, measured.
struct Line {
    figures: Figures,
    /// Nothing is known of a picture's file.
    exact: Option<bool>,
    /// Which region it is, by the option that names it.
    place: String,
}

pub fn run(args: &Brightness, quiet: bool) -> Result<Status, Failure> {
    let others = [&args.marked.rects, &args.region].into_iter().flatten();
    let inputs: Vec<&Path> = [&args.file].into_iter().chain(others).map(PathBuf::as_path).collect();
    jobs::check_standard_input(&inputs)?;
    jobs::check_same(&inputs, Path::new("-"))?;
    let messages = Messages { quiet, data: true };
    let shot = read(&args.file, &messages)?;
    // All before any is printed: a log has every line of a shot, or none.
    let lines = match &args.region {
        Some(path) => vec![of_bitmap(&shot, path, &messages)?],
        None => of_rectangles(&shot, &rectangles(args, &shot)?).map_err(|failure| failure.of(&shot.name))?,
    };
    let text: String = lines.iter().map(Line::text).collect();
    output::write(Path::new("-"), text.as_bytes())?;
    Ok(told(&shot, &lines, &messages))
}

/// What a file begins with decides whether it is a picture or a stream.
fn read(path: &Path, messages: &Messages) -> Result<Shot, Failure> {
    let (name, file) = (input::name(path), input::read(path)?);
    if is_picture(&file) {
        let picture = picture_of(path, &file, messages).map_err(|failure| failure.with(advice(&file)))?;
        return Ok(Shot { name, picture, source: None });
    }
    let stream = stream_of(path, file, messages)?;
    let (reading, picture) = stream.show(0).map_err(|failure| failure.of(&name))?;
    let exact = exact_samples(&stream, &reading).map_err(|failure| failure.of(&name))?;
    Ok(Shot { name, picture, source: Some(Source { stream, reading, exact }) })
}

/// A stream begins with its length, whose first byte is below 16 in the longest one too, and behind it has its version,
/// 1. What has neither is left to the reader of pictures, which names the formats that are not taken.
fn is_picture(file: &[u8]) -> bool {
    Format::of_file(file).is_some() || matches!(file, [16..=255, _, _, _, version, ..] if *version != 1)
}

/// What else may be done where a file is not taken as a picture.
fn advice(file: &[u8]) -> &'static str {
    match (file, Format::of_file(file)) {
        ([b'P', b'1' | b'4', ..], _) => "; --region takes it, for a stream or a picture in which it is the region",
        (_, None) => "; streams are taken too",
        (_, Some(_)) => "",
    }
}

fn exact_samples(stream: &Stream, reading: &Reading) -> Result<Vec<u8>, Failure> {
    let setting = &stream.setting;
    if reading.complete() {
        return Ok(vec![1; setting.area()]);
    }
    let arrived = if reading.whole { &setting.rectangles[..] } else { &[] };
    codec::region(arrived, setting.width, setting.height)
}

/// The rectangles of the command line or, where it has none, those of the stream.
fn rectangles(args: &Brightness, shot: &Shot) -> Result<Vec<Rectangle>, Failure> {
    if !args.marked.rect.is_empty() || args.marked.rects.is_some() {
        return marked_rectangles(&args.marked);
    }
    let lacking = match &shot.source {
        Some(source) if !source.stream.setting.rectangles.is_empty() => {
            return Ok(source.stream.setting.rectangles.clone())
        }
        Some(_) => "no rectangle is marked in this stream",
        None => "a picture has no rectangles of its own",
    };
    Err(Failure::usage(format!("{lacking}: give --rect, --rects or --region")).of(&shot.name))
}

/// Each rectangle alone, once all of them together are accepted.
fn of_rectangles(shot: &Shot, rectangles: &[Rectangle]) -> Result<Vec<Line>, Failure> {
    let Picture { width, height, .. } = shot.picture;
    codec::region(rectangles, width, height)?;
    let measure = |rectangle: &Rectangle| {
        let samples = codec::region(slice::from_ref(rectangle), width, height)?;
        let region = Bitmap { width, height, samples };
        let figures = codec::brightness(&shot.picture, &region, |number| meaning(number).to_string())?;
        Ok(Line { figures, exact: shot.exact(&region), place: format!("rect={rectangle}") })
    };
    rectangles.iter().map(measure).collect()
}

fn of_bitmap(shot: &Shot, path: &Path, messages: &Messages) -> Result<Line, Failure> {
    let region = read_bitmap(path, messages)?;
    let cause = |number| causes::of_brightness(number, &shot.picture, &region, &input::name(path));
    let figures = codec::brightness(&shot.picture, &region, cause).map_err(|failure| failure.of(&shot.name))?;
    // Printed without control characters, since a line end in a name would make two lines of one.
    let place = format!("region={}", words::printable(&path.to_string_lossy()));
    Ok(Line { figures, exact: shot.exact(&region), place })
}

impl Shot {
    /// Whether every sample of a region is known to be as captured, where anything is known.
    fn exact(&self, region: &Bitmap) -> Option<bool> {
        let source = self.source.as_ref()?;
        Some(region.samples.iter().zip(&source.exact).all(|(inside, exact)| inside <= exact))
    }
}

impl Line {
    /// The figures stand first, where they have the same places in every line; a name, which may have blanks, is last.
    fn text(&self) -> String {
        let Figures { number, sum, quotient, remainder } = self.figures;
        let exact = match self.exact {
            Some(true) => "yes",
            Some(false) => "no",
            None => "unknown",
        };
        format!("number={number} sum={sum} quotient={quotient} remainder={remainder} exact={exact} {}\n", self.place)
    }
}

/// The status; where it is not 0, a note says why.
fn told(shot: &Shot, lines: &[Line], messages: &Messages) -> Status {
    let few = lines.iter().filter(|line| line.exact == Some(false)).count();
    match &shot.source {
        _ if lines.is_empty() => {
            messages.note(&format!("{}: there is no rectangle: nothing was measured", shot.name));
            Status::NotExact
        }
        Some(Source { stream, reading, .. }) if few > 0 => {
            messages.note(&format!("{}: {}", shot.name, report::not_exact(stream, reading, few, lines.len())));
            Status::NotExact
        }
        _ => Status::Done,
    }
}
