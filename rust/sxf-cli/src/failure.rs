//! What goes wrong, and how the user learns of it: one line on standard error, and the exit status. What is told beside a sheet that is written goes
//! there too.
use crate::quoted::visible_line;
use crate::standard;
use std::fmt::Display;
use std::io::{self, Write};
use std::path::Path;
use std::process::ExitCode;
use sxf::Refusal;

pub enum Failure {
    /// The sheet or the table is refused.
    Refused(String),
    /// A file cannot be read or written, or is not what it should be.
    Trouble(String),
    /// Nobody reads standard output any more, as when `head` has its lines. That is no failure of ours.
    Gone,
}

impl Failure {
    pub fn refused(file: &Path, refusal: Refusal) -> Failure {
        Failure::Refused(format!("{}: {refusal}", file.display()))
    }

    /// A refusal with a meaning that it has here.
    pub fn refused_here(file: &Path, refusal: Refusal, meaning: impl Display) -> Failure {
        Failure::Refused(format!("{}: {}", file.display(), refusal.meaning_here(meaning)))
    }

    pub fn trouble(file: &Path, what: impl Display) -> Failure {
        Failure::Trouble(format!("{}: {what}", file.display()))
    }

    pub fn standard_output(error: io::Error) -> Failure {
        Failure::Trouble(format!("standard output: {error}"))
    }

    pub fn tell(self) -> ExitCode {
        match self {
            Failure::Refused(line) => told(&line, 1),
            Failure::Trouble(line) => told(&line, 2),
            Failure::Gone => ExitCode::SUCCESS,
        }
    }
}

/// The longest line of a failure: longer ones have a long string of the input in them.
const LONGEST: usize = 2000;

/// Where even the line cannot be printed, the exit status alone says what happened.
fn told(line: &str, status: u8) -> ExitCode {
    let line: String = line.chars().take(LONGEST).collect();
    let _ = io::stderr().write_all(printed(&line).as_bytes());
    ExitCode::from(status)
}

/// Tells what is done beside what was asked for. That is no failure, but it is one where it cannot be told. The line is not cut, however long the
/// file's name is: at its end stands what is told nowhere else.
pub fn say(file: &Path, what: impl Display) -> io::Result<()> {
    let line = printed(&format!("{}: {what}", file.display()));
    let said = standard::error().and_then(|mut error| error.write_all(line.as_bytes()));
    said.map_err(|error| io::Error::other(format!("standard error: {error}")))
}

/// A line of standard error. A name of a file or a string of a JSON line may have line ends and what else a terminal acts on.
fn printed(line: &str) -> String {
    format!("sxf: {}\n", visible_line(line))
}

/// An error on standard output: errors of other files are given the file's name where they arise.
impl From<io::Error> for Failure {
    fn from(error: io::Error) -> Failure {
        match error.kind() {
            io::ErrorKind::BrokenPipe => Failure::Gone,
            _ => Failure::standard_output(error),
        }
    }
}
