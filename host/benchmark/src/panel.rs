//! The demonstration's panel, which the tool draws and writes to a file that the
//! script names in PANEL.

use std::{env, fs};

use benchmark::size::Size;
use picture::Picture;

/// None if there is no such file.
pub fn read() -> Option<Picture> {
    let path = env::var_os("PANEL")?;
    let name = path.to_string_lossy();
    let file = fs::read(&path).unwrap_or_else(|error| panic!("{name}: {error}"));
    let panel = picture::parse(&file).unwrap_or_else(|error| panic!("{name}: {error}"));
    Some(panel)
}

/// A picture of any size: the panel's upper left part, and where the size is larger
/// than the panel, the panel again.
pub fn samples(panel: &Picture, size: Size) -> Vec<u16> {
    let mut samples = Vec::with_capacity(size.samples());
    for y in 0..size.h {
        let row = panel.width * (y % panel.height);
        samples.extend((0..size.w).map(|x| panel.samples[row + x % panel.width]));
    }
    samples
}
