//! What a stream says of itself, and how much of it arrived, as text and as JSON.

use crate::cable::Cable;
use crate::codec::{Reading, Stream, KERNELS};
use crate::failure::Status;
use crate::rectangles::Rectangle;
use crate::words;
use picture::Bitmap;
use serde_json::{json, Value};

/// How many of how many bytes arrived, and whether every marked bit did.
pub fn arrival(stream: &Stream, reading: &Reading) -> String {
    format!("{}; {}", bytes_arrived(stream), bits_arrived(stream, reading))
}

/// The same of a picture that is shown at a level; above 0 the level and the size stand in front.
pub fn arrival_at(level: usize, stream: &Stream, reading: &Reading) -> String {
    if level == 0 {
        return arrival(stream, reading);
    }
    let (size, bits) = (extent(stream.setting.size(level)), told_of_bits(stream, reading, SMALL));
    format!("level {level}, {size}; {}; {bits}", bytes_arrived(stream))
}

/// A width and a height.
pub fn extent((width, height): (usize, usize)) -> String {
    format!("{} by {}", words::size(width), words::size(height))
}

/// How many of a bitmap's samples are inside.
pub fn inside(bitmap: &Bitmap) -> String {
    format!("{} of {}", words::size(bitmap.inside()), words::count(bitmap.samples.len(), "sample"))
}

pub fn bytes_arrived(stream: &Stream) -> String {
    match (stream.bytes.len(), stream.sent) {
        (there, sent) if there < sent => format!("{} of {} bytes arrived", words::size(there), words::size(sent)),
        (there, _) => format!("all {} bytes arrived", words::size(there)),
    }
}

/// What the rectangles are where every marked bit arrived, and where not every one did.
type Outcomes = [&'static str; 2];

const FULL: Outcomes = ["exact unless the link changed a bit", "not exact"];

/// In a small picture, whose samples are the transform's and not those of the picture that was captured.
const SMALL: Outcomes = [
    "what the whole stream shows at this level, unless the link changed a bit",
    "perhaps not what the whole stream shows at this level",
];

pub fn bits_arrived(stream: &Stream, reading: &Reading) -> String {
    told_of_bits(stream, reading, FULL)
}

fn told_of_bits(stream: &Stream, reading: &Reading, [whole, part]: Outcomes) -> String {
    let (rectangles, they) = match stream.setting.rectangles.len() {
        0 => return no_rectangle(reading),
        1 => (the_rectangles(1), "it is"),
        count => (the_rectangles(count), "they are"),
    };
    match reading.whole {
        true => format!("every bit of {rectangles} arrived: {they} {whole}"),
        false => format!("not every bit of {rectangles} arrived: {they} {part}"),
    }
}

fn the_rectangles(count: usize) -> String {
    match count {
        1 => "the rectangle".to_string(),
        _ => format!("the {count} rectangles"),
    }
}

fn no_rectangle(reading: &Reading) -> String {
    let every = if reading.complete() { "every" } else { "not every" };
    format!("no rectangle is marked; {every} bit of the picture arrived")
}

/// How many of how many lines with figures of a stream are not exact, and why.
pub fn not_exact(stream: &Stream, reading: &Reading, few: usize, all: usize) -> String {
    let why = match (stream.setting.rectangles.len(), reading.whole) {
        (0, _) => no_rectangle(reading),
        (count, false) => format!("not every bit of {} arrived", the_rectangles(count)),
        (count, true) => format!("not every bit outside {} arrived", the_rectangles(count)),
    };
    let are = if few == 1 { "is" } else { "are" };
    format!("{}; {why}: {few} of {} {are} not exact", bytes_arrived(stream), words::count(all, "line"))
}

/// The status of a stream that was read.
pub fn status(stream: &Stream, reading: &Reading) -> Status {
    let exact = match stream.setting.rectangles.is_empty() {
        true => reading.complete(),
        false => reading.whole,
    };
    if exact {
        Status::Done
    } else {
        Status::NotExact
    }
}

pub fn kernel_name(kernel: usize) -> &'static str {
    KERNELS.get(kernel).unwrap_or(&"unknown")
}

/// A stream that was read, with its name and where its body begins and how long it is.
pub struct Told<'a> {
    pub name: &'a str,
    pub stream: &'a Stream,
    pub reading: &'a Reading,
    pub body: (usize, usize),
    pub cable: &'a Cable,
}

/// All that `info` tells, one thing a line.
pub fn text(told: &Told) -> String {
    let mut lines = vec![
        ("stream", told.name.to_string()),
        ("bytes", bytes_arrived(told.stream)),
        ("marked bits", bits_arrived(told.stream, told.reading)),
    ];
    lines.extend(header_lines(told.stream));
    lines.extend(body_lines(told));
    let lines: Vec<String> = lines.iter().map(|(label, value)| format!("{label:<13} {value}")).collect();
    lines.join("\n")
}

fn header_lines(stream: &Stream) -> Vec<(&'static str, String)> {
    let setting = &stream.setting;
    let size = |level| format!("{level}: {}", extent(setting.size(level)));
    let sizes: Vec<String> = (0..=setting.levels).map(size).collect();
    let mut lines = vec![
        ("version", "1".to_string()),
        ("kernel", format!("{} ({})", setting.kernel, kernel_name(setting.kernel))),
        ("levels J", setting.levels.to_string()),
        ("level sizes", sizes.join("; ")),
        ("depth D", setting.depth.to_string()),
        ("width W", setting.width.to_string()),
        ("height H", setting.height.to_string()),
        ("planes T", stream.planes.to_string()),
        ("rectangles", setting.rectangles.len().to_string()),
    ];
    for (i, r) in setting.rectangles.iter().enumerate() {
        lines.push(("", format!("{:<2} x {} y {} width {} height {}", i + 1, r.x, r.y, r.width, r.height)));
    }
    lines
}

fn body_lines(told: &Told) -> [(&'static str, String); 5] {
    let Told { stream, reading, body, cable, .. } = told;
    let mark = match reading.whole {
        true => cable.length(reading.region_mark),
        false => "not known, since not every marked bit arrived".to_string(),
    };
    let coefficients = words::count(stream.setting.area(), "coefficient");
    [
        ("marked", format!("{} of {coefficients}", words::size(reading.marks))),
        ("region mark", mark),
        ("length", cable.length(stream.bytes.len())),
        ("body", format!("{}, from byte {}", words::count(body.1, "byte"), body.0)),
        ("q", format!("{} (planes of the unmarked coefficients that did not wholly arrive)", reading.missing)),
    ]
}

/// The same as a JSON object.
pub fn json(told: &Told) -> Value {
    let Told { name, stream, reading, body, cable } = told;
    let setting = &stream.setting;
    let rectangle = |r: &Rectangle| json!({"x": r.x, "y": r.y, "width": r.width, "height": r.height});
    let size = |level| {
        let (width, height) = setting.size(level);
        json!({"level": level, "width": width, "height": height})
    };
    let mark = reading.whole.then_some(reading.region_mark);
    json!({
        "file": name,
        "arrived": stream.bytes.len(),
        "sent": stream.sent,
        "kernel": setting.kernel,
        "kernel_name": kernel_name(setting.kernel),
        "levels": setting.levels,
        "depth": setting.depth,
        "width": setting.width,
        "height": setting.height,
        "sizes": (0..=setting.levels).map(size).collect::<Vec<_>>(),
        "planes": stream.planes,
        "rectangles": setting.rectangles.iter().map(rectangle).collect::<Vec<_>>(),
        "coefficients": setting.area(),
        "marked": reading.marks,
        "marked_bits_arrived": reading.whole,
        "region_mark": mark,
        "seconds": cable.enough(stream.bytes.len(), 9),
        "region_mark_seconds": mark.map(|mark| cable.enough(mark, 9)),
        "body_start": body.0,
        "body_length": body.1,
        "q": reading.missing,
        "complete": reading.complete(),
    })
}
