//! The files of a command: which output belongs to which input, and which names are wrong usage before any work.

use crate::failure::Failure;
use crate::input::{self, is_standard};
use crate::output;
use same_file::Handle;
use std::collections::HashSet;
use std::fs;
use std::path::{Path, PathBuf};

/// One input and where its output goes.
pub struct Job {
    pub input: PathBuf,
    pub output: PathBuf,
}

/// The jobs of the files on a command line: IN and OUT, or with a folder one or more inputs, whose outputs `named`
/// names. `others` are further inputs.
pub fn jobs(
    files: &[PathBuf],
    into: Option<&Path>,
    others: &[&Path],
    named: impl Fn(&Path) -> Option<PathBuf>,
) -> Result<Vec<Job>, Failure> {
    let jobs = match into {
        None => vec![one(files)?],
        Some(folder) => files.iter().map(|input| inside(folder, input, &named)).collect::<Result<_, _>>()?,
    };
    let mut places = HashSet::new();
    if let Some(job) = jobs.iter().find(|job| !places.insert(output::place(&job.output))) {
        return Err(Failure::usage(format!("two inputs would be written to {}", output::name(&job.output))));
    }
    let inputs: Vec<&Path> = jobs.iter().map(|job| job.input.as_path()).chain(others.iter().copied()).collect();
    check_standard_input(&inputs)?;
    for job in &jobs {
        check_same(&inputs, &job.output)?;
    }
    if let Some(folder) = into.filter(|folder| !folder.is_dir()) {
        return Err(Failure::input_output("there is no such folder").of(&folder.display().to_string()));
    }
    Ok(jobs)
}

fn one(files: &[PathBuf]) -> Result<Job, Failure> {
    match files {
        [input, output] => Ok(Job { input: input.clone(), output: output.clone() }),
        _ => Err(Failure::usage("two files are taken, an input and an output, or inputs alone with --into DIR")),
    }
}

fn inside(folder: &Path, input: &Path, named: impl Fn(&Path) -> Option<PathBuf>) -> Result<Job, Failure> {
    if is_standard(input) || is_standard(folder) {
        return Err(Failure::usage("--into takes no '-': it needs the names of files and of a folder"));
    }
    let name = named(input).ok_or_else(|| Failure::usage(format!("{} is not the name of a file", input.display())))?;
    Ok(Job { input: input.to_path_buf(), output: folder.join(name) })
}

/// At most one input may be standard input.
pub fn check_standard_input(inputs: &[&Path]) -> Result<(), Failure> {
    match inputs.iter().filter(|input| is_standard(input)).count() {
        0 | 1 => Ok(()),
        _ => Err(Failure::usage("standard input ('-') can be one input alone")),
    }
}

/// An output must not be the same file as an input, under whatever names.
pub fn check_same(inputs: &[&Path], output: &Path) -> Result<(), Failure> {
    let Some(target) = identity(output, Handle::stdout) else {
        return Ok(());
    };
    match inputs.iter().find(|input| identity(input, Handle::stdin).as_ref() == Some(&target)) {
        None => Ok(()),
        Some(input) => Err(Failure::usage(format!(
            "{} and {} are the same file: an output may not take the place of an input",
            input::name(input),
            output::name(output)
        ))),
    }
}

/// What a name stands for, where that is a regular file: a pipe is not opened, since that would wait for its other
/// end. What cannot be opened cannot be read as an input either.
fn identity(path: &Path, standard: impl Fn() -> std::io::Result<Handle>) -> Option<Handle> {
    if is_standard(path) {
        let handle = standard().ok()?;
        return handle.as_file().metadata().ok()?.is_file().then_some(handle);
    }
    fs::metadata(path).ok()?.is_file().then(|| Handle::from_path(path).ok())?
}
