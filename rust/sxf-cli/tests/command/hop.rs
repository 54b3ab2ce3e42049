//! The frame, and the first record of a code: what `sxf frame` and `sxf find` print, of accepted sheets beside what `sxf list` prints, and of
//! damaged ones.
use crate::drawn;
use crate::run::{fed, on, out, sample, status, sxf, told, Folder, ACCEPTED};
use std::collections::BTreeSet;
use std::fs;
use std::path::{Path, PathBuf};
use sxf::fields::{descriptor, header, passport, START};

const NOT_CHECKED: &str = "; the sheet was not checked\n";

fn find(sheet: &Path, code: u32) -> std::process::Output {
    on("find", sheet, &["--code", &code.to_string()])
}

/// The line that is due of an accepted sheet, by what `sxf list` prints of it: number, place, total length and code of each record.
fn due(listed: &str, code: u32) -> String {
    let records: Vec<Vec<usize>> = listed.lines().skip(1).map(|line| line.split(' ').flat_map(str::parse).collect()).collect();
    match records.iter().find(|record| record[3] == code as usize) {
        Some(record) => {
            let (number, place, total) = (record[0], record[1], record[2]);
            format!(
                "record {number} at {place} ({place:#x}), {total} bytes, code {code}; headers looked at: {}{NOT_CHECKED}",
                number + 1
            )
        }
        None => format!("no record has code {code}; headers looked at: {}{NOT_CHECKED}", records.len()),
    }
}

/// The samples that are accepted, and drawn sheets.
fn sheets(folder: &Folder) -> Vec<PathBuf> {
    let drawn = (0..20).map(|number| {
        let file = folder.file(&format!("drawn-{number}"));
        fs::write(&file, drawn::sheet(number)).expect("a file");
        file
    });
    ACCEPTED.map(sample).into_iter().chain(drawn).collect()
}

/// The code at +348.
fn frame_code(sheet: &Path) -> u32 {
    let bytes = fs::read(sheet).expect("a sheet");
    u32::from_le_bytes(*bytes[passport::FRAME.range()].first_chunk().expect("four bytes"))
}

#[test]
fn what_is_found_is_the_first_that_is_listed() {
    let folder = Folder::new("find");
    for sheet in sheets(&folder) {
        let listed = out(&on("list", &sheet, &[]));
        let listed_codes = listed.lines().skip(1).take(4).flat_map(|line| line.split(' ').nth(3)).flat_map(str::parse);
        let codes: BTreeSet<u32> = listed_codes.chain([0, 7, u32::MAX]).collect();
        for code in codes {
            let found = find(&sheet, code);
            assert_eq!((status(&found), found.stderr.len(), out(&found)), (0, 0, due(&listed, code)), "{}", sheet.display());
        }
        let frame = on("frame", &sheet, &[]);
        let line = due(&listed, frame_code(&sheet));
        assert_eq!((status(&frame), frame.stderr.len(), out(&frame)), (0, 0, line), "{}", sheet.display());
    }
}

#[test]
fn the_lines_are_as_stated() {
    let line = "record 1 at 488 (0x1e8), 52 bytes, code 93100000; headers looked at: 2; the sheet was not checked\n";
    assert_eq!(out(&on("frame", &sample("frame"), &[])), line);
    assert_eq!(out(&find(&sample("frame"), 93_100_000)), line);
    let none = "no record has code 7; headers looked at: 3; the sheet was not checked\n";
    assert_eq!(out(&find(&sample("frame"), 7)), none);
    // A sheet without records, and a frame whose code is 0.
    assert_eq!(out(&on("frame", &sample("E"), &[])), "no record has code 0; headers looked at: 0; the sheet was not checked\n");
    let q = "record 0 at 452 (0x1c4), 42 bytes, code 0; headers looked at: 1; the sheet was not checked\n";
    assert_eq!(out(&on("frame", &sample("Q"), &[])), q);
}

/// What `sxf check` refuses for its sum, its texts or what its records hold is looked through all the same.
#[test]
fn a_sheet_that_is_not_accepted_may_have_its_frame_found() {
    for (name, total) in [("closing", 42), ("graphics", 36), ("left-over", 36), ("n1-not-zero", 48)] {
        assert_eq!(status(&on("check", &sample(name), &[])), 1, "{name}");
        let line = format!("record 0 at 452 (0x1c4), {total} bytes, code 0; headers looked at: 1{NOT_CHECKED}");
        let frame = on("frame", &sample(name), &[]);
        assert_eq!((status(&frame), out(&frame)), (0, line), "{name}");
    }
    for name in ["sum-wrong", "no-zero"] {
        assert_eq!(status(&find(&sample(name), 0)), 0, "{name}");
    }
}

/// A sheet that is refused ends with 1 and is told as every refusal, with nothing on standard output.
fn is_refused(sheet: &Path, words: &str) {
    for output in [on("frame", sheet, &[]), find(sheet, 0)] {
        assert_eq!((status(&output), output.stdout.len()), (1, 0), "{words}");
        assert!(told(&output).contains(words), "{words}: {}", told(&output));
    }
}

#[test]
fn start_and_headers_are_refused() {
    is_refused(&sample("too-short"), "too-short.sxf: refusal 2 SHORT at 0 (0x0): ");
    is_refused(&sample("not-sxf"), "not-sxf.sxf: refusal 3 NOT SXF at 0 (0x0): ");
    let folder = Folder::new("find-refused");
    let file = folder.file("damaged.sxf");
    let total = header::TOTAL.at(START);
    let refused = |place: usize, bytes: &[u8], words: &str| {
        let mut damaged = fs::read(sample("Q")).expect("a sample");
        damaged[place..][..bytes.len()].copy_from_slice(bytes);
        fs::write(&file, damaged).expect("a file");
        is_refused(&file, words);
    };
    refused(descriptor::IDENTIFIER.place, &[0], "damaged.sxf: refusal 3 NOT SXF at 400 (0x190): ");
    refused(START, &[0], "damaged.sxf: refusal 3 NOT SXF at 452 (0x1c4): ");
    refused(total.place, &[31, 0, 0, 0], "damaged.sxf: refusal 10 LENGTH at 456 (0x1c8): ");
    refused(total.place, &[43, 0, 0, 0], "damaged.sxf: refusal 2 SHORT at 456 (0x1c8): ");
    let whole = fs::read(sample("Q")).expect("a sample");
    fs::write(&file, &whole[..START + header::SIZE - 1]).expect("a file");
    is_refused(&file, "damaged.sxf: refusal 2 SHORT at 452 (0x1c4): ");
    // No byte of it is on the disk.
    fs::File::create(&file).and_then(|file| file.set_len(1 << 40)).expect("a file with a hole");
    is_refused(&file, "damaged.sxf: refusal 1 TOO LONG at 0 (0x0): ");
}

#[test]
fn a_sheet_may_come_on_standard_input() {
    let sheet = fs::read(sample("frame")).expect("a sample");
    for words in [&["frame", "-"][..], &["find", "-", "--code", "93100000"]] {
        assert_eq!(out(&fed(&mut sxf(words), &sheet)), out(&on("frame", &sample("frame"), &[])), "{words:?}");
    }
}

/// No setting is asked for, so none is taken. What is no code is told as `sxf select` tells it (index.rs).
#[test]
fn other_words_are_usage() {
    for words in [
        &["frame"][..],
        &["find", "x"],
        &["find", "--code", "0"],
        &["frame", "x", "--code", "0"],
        &["frame", "x", "--year", "2017"],
    ] {
        let output = sxf(words).output().expect("sxf runs");
        assert_eq!(status(&output), 2, "{words:?}");
        told(&output);
    }
    assert_eq!(status(&on("frame", &sample("none-such"), &[])), 2);
    assert_eq!(status(&on("frame", Path::new("."), &[])), 2);
}

#[test]
fn help_says_that_the_sheet_is_not_checked() {
    let help = |words: &[&str]| out(&sxf(words).output().expect("sxf runs"));
    for word in ["frame", "find"] {
        assert!(help(&[word, "-h"]).contains("without checking the sheet"), "{word}");
        assert!(!help(&[word, "--help"]).contains("--year"), "{word}");
    }
    assert!(help(&["find", "--help"]).contains("of another the line says only what the headers say that were looked at"));
    assert!(help(&["frame", "--help"]).contains("0 there is a code like any other"));
}
