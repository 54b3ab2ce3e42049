//! The command holds a sheet once and its record table once. How much memory it had at most is told by a `python3` that runs nothing else.
use crate::run::{on, out, Folder};
use std::fs;
use std::path::PathBuf;
use std::process::Command;
use sxf::table::needs_mark;
use sxf::{row, write, Head, Reference, Setting, Table};

/// Runs a command, of which nothing is seen, and prints how many KiB of memory it had at most.
const RUN: &str = "import resource, subprocess, sys
subprocess.run(sys.argv[1:], stdout=subprocess.DEVNULL, stderr=subprocess.DEVNULL, check=True)
print(resource.getrusage(resource.RUSAGE_CHILDREN).ru_maxrss)";

/// How many bytes of memory the command had at most.
fn peak(words: &[&str]) -> usize {
    let mut python = Command::new("/usr/bin/python3");
    let output = python.args(["-c", RUN, env!("CARGO_BIN_EXE_sxf")]).args(words).output().expect("python3 runs");
    let told = out(&output);
    1024 * told.trim().parse::<usize>().unwrap_or_else(|_| panic!("{words:?}: {}", String::from_utf8_lossy(&output.stderr)))
}

/// What a command may have besides what is stated and what it has when it does nothing, as which `python3`'s own memory counts. All of that together is
/// less than a sheet has here.
const BESIDES: usize = 4 << 20;

/// A sheet of one long record, of 16 MiB, and one of many short records, of 13 MiB: how many records, and how many points each.
const LONG: (usize, u64) = (1, 1 << 20);
const SHORT: (usize, u64) = (300_000, 1);

/// A sheet whose records have code 7 and points of two 8-byte elements, and how many bytes it has, and its table, and the picks of all its records, which
/// a selection has twice while it holds them against the sheet.
struct Made {
    file: PathBuf,
    sheet: usize,
    table: usize,
    picks: usize,
}

fn made(folder: &Folder, (records, points): (usize, u64)) -> Made {
    let mark = needs_mark([points]);
    let record = row::Record {
        code: 7,
        reference: (Reference::FLOATING | Reference::ELEMENT_SIZE).into(),
        word: if mark { points } else { 0 },
        parts: 1,
        mark: mark.into(),
        ..Default::default()
    };
    let numbers = [&record.numbers()[..], &row::Part { points, text_length: 0 }.numbers()].concat().repeat(records);
    let elements: Vec<u64> = (0..2 * records * points as usize).map(|number| (number as f64 / 7.0).to_bits()).collect();
    let table = 8 * (numbers.len() + elements.len());
    let sheet = write(&Head::PLAIN, Table { numbers, elements, bytes: Vec::new() }.lend(), Setting::Y2017).expect("a sheet");
    let file = folder.file("sheet.sxf");
    fs::write(&file, &sheet).expect("a file");
    Made { file, sheet: sheet.len(), table, picks: 2 * 3 * 8 * records }
}

/// Sees that the command has no more than so many bytes beside what it has when it does nothing.
fn has_at_most(words: &[&str], bytes: usize) {
    let (peak, nothing) = (peak(words), peak(&["--version"]));
    assert!(peak <= nothing + bytes + BESIDES, "{words:?}: {peak} bytes, where {bytes} and {nothing} are due");
}

/// Those that read a sheet. With one long record nothing may be held twice of it either, and with many short ones nothing for each of them.
#[test]
fn a_sheet_that_is_read_is_held_once_and_so_is_its_table() {
    let folder = Folder::new("memory-read");
    for which in [LONG, SHORT] {
        let Made { file, sheet, table, picks } = made(&folder, which);
        let file = file.to_str().expect("a path in UTF-8");
        let (index, clean) = (folder.file("sheet.idx"), folder.file("clean.sxf"));
        let (index, clean) = (index.to_str().expect("a path in UTF-8"), clean.to_str().expect("a path in UTF-8"));
        has_at_most(&["check", file], sheet);
        has_at_most(&["years", file], sheet);
        has_at_most(&["frame", file], sheet);
        has_at_most(&["find", file, "--code", "8"], sheet);
        has_at_most(&["index", file, "--force", "-o", index], sheet);
        has_at_most(&["list", file], sheet + table);
        has_at_most(&["show", file], sheet + table);
        has_at_most(&["table", file], sheet + table);
        has_at_most(&["clean", file, "--force", "-o", clean], sheet + table);
        has_at_most(&["select", file, "--code", "7"], sheet + table + picks);
        has_at_most(&["select", file, "--code", "7", "--index", index], sheet + table + picks);
    }
}

/// Beside what is written stands the table, and of the lines only the record at hand.
#[test]
fn a_sheet_that_is_written_is_held_once_and_so_is_its_table() {
    let folder = Folder::new("memory-written");
    let Made { file, sheet, table, .. } = made(&folder, SHORT);
    let (lines, written) = (folder.file("lines.json"), folder.file("written.sxf"));
    fs::write(&lines, on("table", &file, &[]).stdout).expect("a file");
    let (lines, written) = (lines.to_str().expect("a path in UTF-8"), written.to_str().expect("a path in UTF-8"));
    has_at_most(&["write", lines, "-o", written], sheet + table);
    assert!(fs::read(written).expect("a sheet") == fs::read(&file).expect("a sheet"));
}
