//! Files written so that nothing is lost: a temporary file beside the target takes its place once it is complete.

use crate::failure::Failure;
use crate::input::is_standard;
use crate::signals;
use crate::words;
use same_file::Handle;
use std::fs::{self, File, Metadata, OpenOptions, Permissions};
use std::io::{self, Write};
use std::os::unix::fs::{fchown, FileTypeExt, MetadataExt, PermissionsExt};
use std::path::{Path, PathBuf};
use tempfile::NamedTempFile;

/// Where an output goes, whatever links its name leads through.
pub fn place(path: &Path) -> PathBuf {
    let end = end_of_links(path).unwrap_or_else(|_| path.to_path_buf());
    match (fs::canonicalize(folder_of(&end)), end.file_name()) {
        (Ok(folder), Some(name)) => folder.join(name),
        _ => end,
    }
}

/// As many symbolic links as the system itself follows.
const MOST_LINKS: usize = 40;

/// An output's name, for messages.
pub fn name(path: &Path) -> String {
    match is_standard(path) {
        true => "standard output".to_string(),
        false => words::printable(&path.to_string_lossy()),
    }
}

/// Whether what is written there goes to standard output, under whatever name, such as /dev/stdout. A device is written
/// by its own name: nothing can be lost there.
pub fn is_standard_output(path: &Path) -> bool {
    let standard = || Handle::stdout()?.as_file().metadata();
    is_standard(path)
        || match (fs::metadata(path), standard()) {
            (Ok(there), Ok(out)) => {
                !there.file_type().is_char_device() && (there.dev(), there.ino()) == (out.dev(), out.ino())
            }
            _ => false,
        }
}

/// Writes a whole file, or to standard output. Where it fails, or is interrupted, the file is as it was.
pub fn write(path: &Path, bytes: &[u8]) -> Result<(), Failure> {
    let outcome = match is_standard_output(path) {
        true => to_standard_output(bytes),
        false => to_file(path, bytes),
    };
    outcome.map_err(|error| Failure::input_output(words::reason(&error)).of(&name(path)))
}

pub fn to_standard_output(bytes: &[u8]) -> io::Result<()> {
    let mut out = io::stdout().lock();
    out.write_all(bytes)?;
    out.flush()
}

fn to_file(path: &Path, bytes: &[u8]) -> io::Result<()> {
    match fs::metadata(path) {
        Ok(old) if old.is_file() => {
            // A file that is protected against writing is not replaced.
            OpenOptions::new().write(true).open(path)?;
            replace(&fs::canonicalize(path)?, bytes, Some(&old))
        }
        // A device or a pipe cannot be replaced.
        Ok(_) => OpenOptions::new().write(true).open(path)?.write_all(bytes),
        Err(error) if error.kind() == io::ErrorKind::NotFound => replace(&end_of_links(path)?, bytes, None),
        Err(error) => Err(error),
    }
}

/// Where symbolic links lead that end at no file yet.
fn end_of_links(path: &Path) -> io::Result<PathBuf> {
    let mut place = path.to_path_buf();
    for _ in 0..MOST_LINKS {
        match fs::read_link(&place) {
            Ok(next) => place = folder_of(&place).join(next),
            Err(_) => return Ok(place),
        }
    }
    Err(io::Error::other("too many symbolic links"))
}

fn folder_of(path: &Path) -> &Path {
    match path.parent() {
        Some(folder) if folder != Path::new("") => folder,
        _ => Path::new("."),
    }
}

/// Writes a temporary file beside the target, and renames it once it is complete.
fn replace(target: &Path, bytes: &[u8], old: Option<&Metadata>) -> io::Result<()> {
    let mut file = {
        let mut held = signals::temporary();
        let folder = folder_of(target);
        let file = tempfile::Builder::new().prefix(".dhiirqobaal-").tempfile_in(folder).map_err(|error| {
            io::Error::other(format!("no file can be made in {}: {}", folder.display(), words::reason(&error)))
        })?;
        *held = Some(file.path().to_path_buf());
        file
    };
    let filled = fill(&mut file, bytes, old);
    let mut held = signals::temporary();
    // Where filling it failed, the temporary file is removed as it goes out of use.
    let outcome = filled.and_then(|()| file.persist(target).map(drop).map_err(|failed| failed.error));
    *held = None;
    outcome
}

fn fill(file: &mut NamedTempFile, bytes: &[u8], old: Option<&Metadata>) -> io::Result<()> {
    file.write_all(bytes)?;
    adopt(file.as_file(), old)?;
    file.as_file().sync_all()
}

/// A file that is replaced leaves its permissions and, where the user may give it, its owner; a new one has the
/// permissions that the umask gives.
fn adopt(file: &File, old: Option<&Metadata>) -> io::Result<()> {
    match old {
        Some(old) => {
            let _ = fchown(file, Some(old.uid()), Some(old.gid()));
            file.set_permissions(old.permissions())
        }
        None => file.set_permissions(Permissions::from_mode(0o666 & !umask())),
    }
}

/// The permissions that new files do not get.
fn umask() -> u32 {
    extern "C" {
        /// The C library's: sets the mask, and answers what it was.
        fn umask(mask: u32) -> u32;
    }
    // SAFETY: no file is made between the two calls, since no other thread makes any.
    unsafe {
        let mask = umask(0o077);
        umask(mask);
        mask
    }
}

pub fn make_folder(path: &Path) -> Result<(), Failure> {
    fs::create_dir_all(path)
        .map_err(|error| Failure::input_output(words::reason(&error)).of(&path.display().to_string()))
}
