//! Files and standard input, read whole.

use crate::failure::Failure;
use crate::words;
use std::fs::File;
use std::io::{self, Read};
use std::path::Path;

/// More than any picture or stream within the codec's limits; it stops a device that never ends.
const LONGEST: u64 = 256 << 20;

/// Whether a name stands for standard input or output.
pub fn is_standard(path: &Path) -> bool {
    path == Path::new("-")
}

/// An input's name, for messages.
pub fn name(path: &Path) -> String {
    match is_standard(path) {
        true => "standard input".to_string(),
        false => words::printable(&path.to_string_lossy()),
    }
}

/// All bytes of a file, or of standard input.
pub fn read(path: &Path) -> Result<Vec<u8>, Failure> {
    let bytes = match is_standard(path) {
        true => read_all(io::stdin().lock()),
        false => File::open(path).and_then(read_all),
    };
    let bytes = bytes.map_err(|error| Failure::input_output(words::reason(&error)).of(&name(path)))?;
    if bytes.len() as u64 > LONGEST {
        return Err(Failure::input_output(format!("longer than {} bytes", words::grouped(LONGEST))).of(&name(path)));
    }
    Ok(bytes)
}

fn read_all(input: impl Read) -> io::Result<Vec<u8>> {
    let mut bytes = Vec::new();
    input.take(LONGEST + 1).read_to_end(&mut bytes)?;
    Ok(bytes)
}
