//! The command `sxf`: sheets of SXF 4.0 are checked, listed, shown, unfolded to JSON lines and written from them, the tails of their text fields
//! cleared, and their records selected by code, through an index or without one. The frame, and the first record of a code, are found without
//! checking the sheet.
//!
//! What is accepted and refused is the proved library's answer; this program reads the files and prints what is answered. Exit status:
//! 0 accepted or done, 1 refused, 2 usage, input or output.
#![deny(unsafe_code)]

mod arguments;
mod check;
mod clean;
mod element;
mod escapes;
mod failure;
mod head;
mod hex;
mod hop;
mod index;
mod input;
mod json;
mod lines;
mod list;
mod object;
mod output;
mod points;
mod quoted;
mod records;
mod select;
mod show;
mod standard;
mod table;
mod tails;
mod text;
mod write;
mod years;

use arguments::{Asked, Command};
use failure::Failure;
use output::Target;
use standard::StandardOutput;
use std::io::{BufWriter, Write};
use std::process::ExitCode;

fn run(out: &mut dyn Write) -> Result<(), Failure> {
    match &arguments::parse()? {
        Asked::Help(text) => Ok(out.write_all(text.as_bytes())?),
        Asked::Command(command) => done(command, out),
    }
}

fn done(command: &Command, out: &mut dyn Write) -> Result<(), Failure> {
    match command {
        Command::List { file } => list::run(file, out),
        Command::Check { file, at } => check::run(file, at.year, out),
        Command::Show { file, record, at } => show::run(file, *record, at.year, out),
        Command::Table { file, bytes, at } => table::run(file, *bytes, at.year, out),
        Command::Write { json, output: file, force, at } => write::run(json, &Target { file, force: *force }, at.year, out),
        Command::Clean { file, output, force, at } => clean::run(file, &Target { file: output, force: *force }, at.year, out),
        Command::Years { file } => years::run(file, out),
        Command::Index { file, output, force, at } => index::run(file, &Target { file: output, force: *force }, at.year, out),
        Command::Select { file, code, index, at } => select::run(file, *code, index.as_deref(), at.year, out),
        Command::Frame { file } => hop::frame(file, out),
        Command::Find { file, code } => hop::find(file, *code, out),
    }
}

fn main() -> ExitCode {
    let mut out = BufWriter::new(StandardOutput::new());
    let done = run(&mut out);
    // What was printed before a failure is printed all the same, and first.
    let flushed = out.flush().map_err(Failure::from);
    match done.and(flushed) {
        Ok(()) => ExitCode::SUCCESS,
        Err(failure) => failure.tell(),
    }
}
