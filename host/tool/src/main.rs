//! The technician's tool for exact-region panel shots: encodes pictures, cuts and shows streams, compares and measures
//! pictures, makes and joins masks.

mod args;
mod cable;
mod causes;
mod codec;
mod commands;
mod compare;
mod demo;
mod failure;
mod font;
mod frames;
mod input;
mod jobs;
mod messages;
mod output;
mod panel;
mod rectangles;
mod report;
mod signals;
mod words;

use args::{Command, Line};
use clap::{CommandFactory, Parser};
use failure::{Failure, Status};
use std::process::ExitCode;

fn main() -> ExitCode {
    let status = match Line::try_parse() {
        Ok(line) => run(&line).unwrap_or_else(|failure| {
            messages::tell(&failure.to_string());
            failure.status
        }),
        Err(answer) => say(&answer),
    };
    status.into()
}

/// Says what clap answers: the help, the version, or what is wrong with the command line.
fn say(answer: &clap::Error) -> Status {
    match (answer.print(), answer.use_stderr()) {
        (Err(_), _) => Status::InputOutput,
        (Ok(()), false) => Status::Done,
        (Ok(()), true) => Status::Usage,
    }
}

fn run(line: &Line) -> Result<Status, Failure> {
    signals::prepare().map_err(|error| Failure::input_output(format!("no signal can be taken: {error}")))?;
    match &line.command {
        Command::Encode(args) => commands::encode::run(args, line.quiet),
        Command::Info(args) => commands::info::run(args, line.quiet),
        Command::Cut(args) => commands::cut::run(args, line.quiet),
        Command::Show(args) => commands::show::run(args, line.quiet),
        Command::Compare(args) => commands::compare::run(args, line.quiet),
        Command::Brightness(args) => commands::brightness::run(args, line.quiet),
        Command::Mask(args) => commands::mask::run(args, line.quiet),
        Command::Join(args) => commands::join::run(args, line.quiet),
        Command::Demo(args) => demo::run(&args.folder, line.quiet),
        Command::Help(args) => help(args.command.as_deref()),
    }
}

/// Prints the help of the program, or of one command.
fn help(name: Option<&str>) -> Result<Status, Failure> {
    let mut program = Line::command();
    program.build();
    let asked = match name {
        None => Some(&mut program),
        Some(name) => program.find_subcommand_mut(name),
    };
    let asked = asked.ok_or_else(|| Failure::usage(format!("there is no command '{}'", name.unwrap_or_default())))?;
    asked.print_long_help().map_err(|error| Failure::input_output(words::reason(&error)).of("standard output"))?;
    Ok(Status::Done)
}
