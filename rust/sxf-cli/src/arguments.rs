//! The command line.
use crate::failure::Failure;
use clap::error::ErrorKind;
use clap::{Args, Parser, Subcommand};
use std::path::PathBuf;
use sxf::Setting;

/// Sheets of SXF 4.0, read and written by the proved library.
///
/// FILE may be - for standard input. A refusal is told by number, name, place and meaning. Exit status: 0 accepted or done, 1 refused, 2 usage,
/// input or output.
#[derive(Parser)]
#[command(name = "sxf", version, after_help = format!("The settings: {}.", nine_years()))]
struct Arguments {
    #[command(subcommand)]
    command: Command,
}

#[derive(Subcommand)]
pub enum Command {
    /// List an accepted sheet: length, sum and count, then a line for each record
    ///
    /// A record's line: number, place, total length, code, number in group, group number, localisation, points of the first part, items.
    List {
        /// The sheet
        file: PathBuf,
    },
    /// Say whether a sheet is accepted, and which text fields have old letters after their first zero
    Check {
        /// The sheet
        file: PathBuf,
        #[command(flatten)]
        at: AtYear,
    },
    /// Show a sheet, or one record of it, for people
    ///
    /// Texts are shown in their characters, with their coding. A byte that has no character is shown as \x98, and so is what would end or steer
    /// the line: \n, \u{1b}. Old letters that stand after the first zero of a text field are shown under the field's text.
    Show {
        /// The sheet
        file: PathBuf,
        /// Only this record, by its number from 0
        #[arg(long, value_name = "N", value_parser = record_number)]
        record: Option<usize>,
        #[command(flatten)]
        at: AtYear,
    },
    /// Print head and record table as JSON lines
    ///
    /// The first line is the head, then comes a line for each record. Texts are characters, and those with a byte that has no character are bytes;
    /// bytes, as other values and what is carried, are strings of hexadecimal digits; elements are numbers, and those that decimals do not
    /// carry safely are strings with their bits; all other numbers are integers. A record has `mark` 1 where its points at +30 are 65535, and no
    /// `mark` where they are not. The head has a `title_tail`, and so for the other texts, where old letters stand after the text's first zero. A tool
    /// that keeps doubles does not spoil these lines, and `sxf write` takes them.
    Table {
        /// The sheet
        file: PathBuf,
        /// Print every text as bytes
        #[arg(long)]
        bytes: bool,
        #[command(flatten)]
        at: AtYear,
    },
    /// Write a sheet from JSON lines as `sxf table` prints them
    ///
    /// The file is written whole or not at all. Where the head has `records`, so many records must follow; without it any number may. A text is
    /// taken as characters (title, label, an item's text), by its coding, or as bytes (title_bytes, label_bytes, an item's scale and value). A
    /// record whose line has no `mark` has it where its points need it: 65535 or more in the first part, more than 65535 in a later one. `word` is
    /// taken as it stands, so who changes the points of the first part under the mark changes `word` too. A `title_tail` is not written, nor is that
    /// of another text: which old letters are cleared so is told on standard error, and where it cannot be told nothing is written. The lines are
    /// UTF-8.
    Write {
        /// The JSON lines
        json: PathBuf,
        /// The sheet to write, or - for standard output
        #[arg(short, long, value_name = "FILE")]
        output: PathBuf,
        /// Replace a file that is there, if it has write permission
        #[arg(long)]
        force: bool,
        #[command(flatten)]
        at: AtYear,
    },
    /// Write a sheet without the old letters that stand after the first zero of its text fields
    ///
    /// What stands there is cleared, in the date, the designation, the title and the descriptor's designation, and the sum put right; nothing else
    /// changes. Which letters are cleared is told on standard error, a line for each field, or that there are none: the sheet is then written as it
    /// was. Where it cannot be told nothing is written. The file is written whole or not at all.
    Clean {
        /// The sheet
        file: PathBuf,
        /// The sheet to write, or - for standard output
        #[arg(short, long, value_name = "OUT")]
        output: PathBuf,
        /// Replace a file that is there, if it has write permission; it may be FILE itself
        #[arg(long)]
        force: bool,
        #[command(flatten)]
        at: AtYear,
    },
    /// Tell from which year on a sheet is accepted, and which features older settings refuse it for
    Years {
        /// The sheet
        file: PathBuf,
    },
    /// Write a code index of a sheet, for `sxf select`
    ///
    /// The index has the class code, the place and the localisation of each record, 56 to a block of 512 bytes; that of a sheet without records
    /// is empty. It does not say which sheet it belongs to, and its format cannot tell: keep it beside its sheet, and build it again after each
    /// change. `sxf index FILE -o - | cmp - INDEX` tells whether it is that of the sheet as it stands. An index of the old kind, 63 to a block, is not
    /// written any more, and has other bytes than the new one; `sxf select` takes both. The file is written whole or not at all, and
    /// never over the sheet that FILE names or that standard input is; a sheet that comes through a pipe is not known.
    Index {
        /// The sheet
        file: PathBuf,
        /// The index to write, or - for standard output
        #[arg(short, long, value_name = "INDEX")]
        output: PathBuf,
        /// Replace a file that is there, if it has write permission
        #[arg(long)]
        force: bool,
        #[command(flatten)]
        at: AtYear,
    },
    /// List the records of a class code, by the sheet or by its index
    ///
    /// The first line is that of `sxf list`, with the count of all records; then comes, as there, a line for each record of the code. With
    /// --index they are those that the index has. That saves no time here, since the sheet is read and checked all the same: an index is for
    /// programs that keep the sheet checked, or read records by place. An index does not say which sheet it belongs to, and its
    /// format cannot tell: keep it beside its sheet, and build it again after each change. It is noticed, and nothing listed, where the index has not
    /// as many entries as the sheet has records, or has under the code a record that is not the sheet's by number, place, code and localisation.
    /// It is not noticed where the index has a record of the code under another one: that record is missing then. An index of the old kind, as `sxf
    /// index` wrote it before 0.8.0, lists the same.
    Select {
        /// The sheet
        file: PathBuf,
        /// The class code, in decimal, 0 to 4294967295
        #[arg(long, value_name = "N", value_parser = class_code, allow_negative_numbers = true)]
        code: u32,
        /// Look the records up in this index, which `sxf index` built from this very sheet; it may be - for standard input
        #[arg(long, value_name = "INDEX")]
        index: Option<PathBuf>,
        #[command(flatten)]
        at: AtYear,
    },
    /// Find the frame of a sheet, without checking the sheet
    ///
    /// The frame is the first record whose class code is the one that the passport has at 348. 0 there is a code like any other: of a sheet that names no
    /// frame it is the first record of code 0. It is found, and told in one line, as `sxf find` does it: sum, texts, flags and what the records
    /// hold are not looked at, and no setting is asked for.
    Frame {
        /// The sheet
        file: PathBuf,
    },
    /// Find the first record of a class code, without checking the sheet
    ///
    /// It goes from header to header, up to the first record that has the code or the last that the descriptor counts, and prints one line: the
    /// record's number, place and total length, the code, and how many headers were looked at. That no record has the code is no failure. The sheet is
    /// not checked: sum, texts, flags and what the records hold are not looked at, and no setting is asked for. Of a sheet that `sxf check` accepts
    /// it finds the first record that `sxf select` lists; of another the line says only what the headers say that were looked at.
    Find {
        /// The sheet
        file: PathBuf,
        /// The class code, in decimal, 0 to 4294967295
        #[arg(long, value_name = "N", value_parser = class_code, allow_negative_numbers = true)]
        code: u32,
    },
}

#[derive(Args)]
pub struct AtYear {
    #[arg(long, value_name = "Y", default_value = "2017", value_parser = setting, help = format!("The setting: {}", nine_years()))]
    pub year: Setting,
}

/// The nine years, as help and refusal name them.
fn nine_years() -> String {
    Setting::ALL.map(|setting| setting.to_string()).join(", ")
}

fn setting(year: &str) -> Result<Setting, String> {
    let nine = format!("the settings are {}", nine_years());
    let year = year.parse().map_err(|_| format!("not a year; {nine}"))?;
    Setting::new(year).map_err(|refusal| refusal.meaning_here(format!("the year asked for is none of the nine; {nine}")))
}

fn record_number(number: &str) -> Result<usize, String> {
    number.parse().map_err(|_| "not the number of a record; they are counted from 0".to_string())
}

fn class_code(number: &str) -> Result<u32, String> {
    number.parse().map_err(|_| format!("not a class code; they are whole numbers, 0 to {}", u32::MAX))
}

/// What the command line asks for.
pub enum Asked {
    Command(Command),
    /// Help or version, as it is to be printed.
    Help(String),
}

pub fn parse() -> Result<Asked, Failure> {
    let error = match Arguments::try_parse() {
        Ok(arguments) => return Ok(Asked::Command(arguments.command)),
        Err(error) => error,
    };
    let what = match error.kind() {
        ErrorKind::DisplayHelp | ErrorKind::DisplayVersion => return Ok(Asked::Help(error.to_string())),
        ErrorKind::DisplayHelpOnMissingArgumentOrSubcommand => "no command is given".to_string(),
        _ => one_line(&error.to_string()),
    };
    Err(Failure::Trouble(format!("{what}; see sxf --help")))
}

/// What is wrong, without the usage that follows after an empty line.
fn one_line(message: &str) -> String {
    let told: Vec<&str> = message.lines().map(str::trim).take_while(|line| !line.is_empty()).collect();
    let told = told.join(" ");
    told.strip_prefix("error: ").unwrap_or(&told).to_string()
}
