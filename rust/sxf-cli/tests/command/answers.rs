//! What the command prints of sheets, and its exit statuses.
use crate::run::{on, out, sample, status, sxf, told, top, Folder, ACCEPTED, REFUSED};
use std::fs;

#[test]
fn q_is_listed_as_document_01_says() {
    let listed = on("list", &sample("Q"), &[]);
    assert_eq!((status(&listed), out(&listed)), (0, "SXF 494 2384 1\n0 452 42 0 0 0 2 1 1\n".to_string()));
}

#[test]
fn every_sample_is_tried() {
    let names = fs::read_dir(top().join("samples")).expect("the samples").map(|entry| entry.expect("an entry").path());
    let mut there: Vec<_> = names.filter(|path| path.extension().is_some_and(|extension| extension == "sxf")).collect();
    let mut tried: Vec<_> = ACCEPTED.iter().chain(&REFUSED).map(|name| sample(name)).collect();
    there.sort();
    tried.sort();
    assert_eq!(tried, there);
}

#[test]
fn the_exit_status_says_whether_a_sheet_is_accepted() {
    for name in ACCEPTED {
        for word in ["check", "list", "show", "table", "years"] {
            let output = on(word, &sample(name), &[]);
            assert_eq!((status(&output), output.stderr.len()), (0, 0), "{word} {name}");
        }
    }
    for name in REFUSED {
        for word in ["check", "list", "show", "table", "years"] {
            let output = on(word, &sample(name), &[]);
            assert_eq!(status(&output), 1, "{word} {name}");
            assert!(told(&output).contains("refusal "), "{word} {name}");
        }
    }
}

#[test]
fn a_refusal_is_told_by_number_name_place_and_meaning() {
    let line = told(&on("check", &sample("sum-wrong"), &[]));
    assert!(line.contains("sum-wrong.sxf: refusal 5 SUM at 12 (0xc): the sum "), "{line}");
    assert!(line.ends_with(" changed or cut short\n"), "{line}");
    let line = told(&on("check", &sample("dated"), &["--year", "2015"]));
    assert!(line.contains("refusal 8 TOO NEW at 100 (0x64): ") && line.ends_with("; it came in 2017\n"), "{line}");
}

#[test]
fn usage_and_unreadable_files_are_status_2() {
    for words in [
        &[][..],
        &["check"],
        &["bogus"],
        &["check", "x", "--year", "2005"],
        &["check", "x", "--year", "new"],
        &["write", "-"],
        &["clean", "x"],
    ] {
        let output = sxf(words).output().expect("sxf runs");
        assert_eq!(status(&output), 2, "{words:?}");
        told(&output);
    }
    let line = told(&on("show", &sample("Q"), &["--record", "x"]));
    assert!(line.contains("not the number of a record; they are counted from 0"), "{line}");
    let folder = Folder::new("unreadable");
    for file in [folder.file("none.sxf"), folder.0.clone()] {
        let output = on("check", &file, &[]);
        assert_eq!(status(&output), 2);
        told(&output);
    }
    assert_eq!(status(&sxf(&["--help"]).output().expect("sxf runs")), 0);
}

#[test]
fn a_file_over_the_limit_is_refused() {
    let folder = Folder::new("over");
    let file = folder.file("long.sxf");
    // No byte of it is on the disk, and all but the first 67,108,865 are not read.
    fs::File::create(&file).and_then(|f| f.set_len(1 << 40)).expect("a file with a hole");
    let output = on("check", &file, &[]);
    assert_eq!(status(&output), 1);
    assert!(told(&output).contains("refusal 1 TOO LONG at 0 (0x0): "));
}

/// The nine years, as help and refusal have them.
const YEARS: &str = "1999, 2004, 2006, 2008, 2012, 2014, 2015, 2016, 2017";

#[test]
fn the_nine_years_stand_in_the_help() {
    let mut words = vec![&["--help"][..], &["-h"], &["check", "--help"], &["show", "-h"], &["table", "-h"], &["write", "--help"]];
    words.extend([&["index", "--help"][..], &["select", "-h"], &["clean", "--help"]]);
    for words in words {
        let help = sxf(words).output().expect("sxf runs");
        assert!(out(&help).contains(YEARS), "{words:?}: {}", out(&help));
    }
}

/// ASK has two meanings: no such setting, and no such record.
#[test]
fn ask_says_which_of_its_meanings_it_has() {
    for year in ["2005", "0", "4294967295"] {
        let line = told(&on("check", &sample("Q"), &["--year", year]));
        assert!(line.contains("refusal 16 ASK at 0 (0x0): the year asked for is none of the nine; "), "{line}");
        assert!(line.contains(YEARS) && !line.contains("record"), "{line}");
    }
    for year in ["new", "4294967296", "-1", ""] {
        let line = told(&on("check", &sample("Q"), &[&format!("--year={year}")]));
        assert!(line.contains("not a year; ") && line.contains(YEARS), "{line}");
    }
    for record in ["2", "18446744073709551615"] {
        let none = on("show", &sample("labels"), &["--record", record]);
        assert_eq!(status(&none), 1);
        let line = told(&none);
        let meaning = format!("refusal 16 ASK at 0 (0x0): there is no record {record}; the sheet has 2, counted from 0\n");
        assert!(line.ends_with(&meaning), "{line}");
    }
}

#[test]
fn one_record_is_shown_with_its_unit() {
    let shown = out(&on("show", &sample("labels"), &["--record", "0"]));
    assert!(shown.starts_with("record 0 at 452 (0x1c4), 60 bytes\n"), "{shown}");
    assert!(shown.contains("\n  unit device points\n"), "{shown}");
    assert!(shown.contains("text \"Gas main\" (DOS)"), "{shown}");
    let shown = out(&on("show", &sample("heights"), &["--record", "3"]));
    assert!(shown.contains("\n  unit device points, unit of heights metres\n"), "{shown}");
    let whole = out(&on("show", &sample("heights"), &[]));
    assert!(!whole.contains("  unit device points"), "the head has it: {whole}");
}

#[test]
fn a_decimal_is_shown_with_its_point() {
    let shown = out(&on("show", &sample("items"), &[]));
    for line in
        ["code 4, type 1, scale byte 0: -1", "code 5, type 2, scale byte 255: 127.3", "code 6, type 4, scale byte 2: 6730598500"]
    {
        assert!(shown.contains(&format!(", {line}\n")), "{line}: {shown}");
    }
}

/// The head has both units, and a height is shown beside the coordinates of its point.
#[test]
fn heights_are_shown_with_a_unit_of_their_own() {
    let shown = out(&on("show", &sample("heights"), &[]));
    assert!(shown.contains("\nunit               device points\nunit of heights    metres\n"), "{shown}");
    assert!(shown.contains("\n    1 2 height 1.0\n"), "{shown}");
    let shown = out(&on("show", &sample("head"), &[]));
    assert!(shown.contains("\nunit               degrees\nunit of heights    metres\n"), "{shown}");
}

#[test]
fn years_tell_features_and_the_first_setting() {
    let expected = "2006 at 98 (0x62): accuracy not 0; met first by 1999 to 2004\n\
                    2017 at 100 (0x64): EPSG not 0; met first by 2006 to 2016\n\
                    accepted from 2017 on\n";
    assert_eq!(out(&on("years", &sample("dated"), &[])), expected);
    assert_eq!(out(&on("years", &sample("E"), &[])), "accepted from 1999 on\n");
}

#[test]
fn a_sheet_may_come_on_standard_input() {
    let sheet = fs::File::open(sample("Q")).expect("a sample");
    let output = sxf(&["list", "-"]).stdin(sheet).output().expect("sxf runs");
    assert!(out(&output).starts_with("SXF 494 2384 1\n"));
}
