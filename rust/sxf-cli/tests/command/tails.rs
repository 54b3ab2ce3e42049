//! Dirty tails: what is told of old letters after the first zero of a text field, and how they are cleared.
use crate::run::{
    changed_in, fed, is_told, on, out, redirected, sample, status, sxf, told, write, Folder, ACCEPTED, DIRTY, REFUSED,
};
use second::cleared;
use std::fs;
use std::path::Path;
use std::process::Output;
use sxf::fields::{descriptor, passport, Field};

/// The text fields, in the order of the sheet.
const FIELDS: [(&str, Field); 4] = [
    ("date", passport::DATE),
    ("designation", passport::DESIGNATION),
    ("title", passport::TITLE),
    ("designation2", descriptor::DESIGNATION),
];

/// What the sample that has old letters in all of its text fields has there.
const OLD_LETTERS: [(&str, &str); 4] =
    [("date", "5"), ("designation", "А-б"), ("title", "ный берег, Ёлкино"), ("designation2", "-37-012")];

/// The lines of standard error that tell what was cleared in it.
fn told_cleared(name: &str) -> String {
    let line = |(field, letters)| {
        format!("sxf: {name}: {field} had old letters after its first zero, which are cleared: \"{letters}\" (Windows)\n")
    };
    OLD_LETTERS.map(line).concat()
}

fn error(output: &Output) -> String {
    String::from_utf8(output.stderr.clone()).expect("UTF-8")
}

/// Cleans a sheet into a file.
fn clean(sheet: &Path, file: &Path, more: &[&str]) -> Output {
    sxf(&["clean"]).arg(sheet).arg("-o").arg(file).args(more).output().expect("sxf runs")
}

/// Q with these bytes at a place, and the sum to match: it has no tail that is not clean.
fn changed(place: usize, bytes: &[u8]) -> Vec<u8> {
    let mut sheet = fs::read(sample("Q")).expect("a sample");
    sheet[place..place + bytes.len()].copy_from_slice(bytes);
    sheet[passport::SUM.range()].fill(0);
    let sum: u32 = sheet.iter().map(|&byte| u32::from(byte)).sum();
    sheet[passport::SUM.range()].copy_from_slice(&sum.to_le_bytes());
    sheet
}

#[test]
fn check_tells_each_dirty_tail_after_its_line() {
    let file = sample("old-letters");
    let checked = on("check", &file, &[]);
    let accepted = format!("{}: accepted at 2017: 492 bytes, sum 8390, records 1\n", file.display());
    let line =
        |(field, letters)| format!("{}: {field} has old letters after its first zero: \"{letters}\" (Windows)\n", file.display());
    assert_eq!((status(&checked), out(&checked)), (0, accepted + &OLD_LETTERS.map(line).concat()));
    let checked = out(&on("check", &sample("dirty-tail"), &[]));
    let zeros = "\\u{0}".repeat(10);
    assert!(
        checked.ends_with(&format!(": designation has old letters after its first zero: \"{zeros}B\" (Windows)\n")),
        "{checked}"
    );
    assert_eq!(checked.lines().count(), 2, "{checked}");
}

#[test]
fn show_has_old_letters_under_their_text() {
    let shown = out(&on("show", &sample("old-letters"), &[]));
    let texts = "date               \"16.11.26\" (Windows)\n  old letters      \"5\" (Windows)\n\
                 designation        \"N-37-004\" (Windows)\n  old letters      \"А-б\" (Windows)\n\
                 designation (data) \"\" (Windows)\n  old letters      \"-37-012\" (Windows)\n\
                 title              \"Мост\" (Windows)\n  old letters      \"ный берег, Ёлкино\" (Windows)\nscale ";
    assert!(shown.contains(texts), "{shown}");
    assert_eq!(out(&on("show", &sample("dirty-tail"), &[])).matches("old letters").count(), 1);
    assert!(!out(&on("show", &sample("old-letters"), &["--record", "0"])).contains("old letters"));
}

/// A clean sheet is told as before there were such lines.
#[test]
fn nothing_is_told_of_clean_tails() {
    for name in ACCEPTED.into_iter().filter(|name| !DIRTY.contains(name)) {
        let told = ["check", "show", "table"].map(|word| out(&on(word, &sample(name), &[])));
        assert_eq!(told[0].lines().count(), 1, "{name}");
        assert!(told.iter().all(|told| !told.contains("old letters") && !told.contains("_tail\"")), "{name}: {told:?}");
    }
}

/// One old letter, at the last byte of each field: it is the only one that is told, by each command.
#[test]
fn each_field_is_told_by_its_name() {
    let folder = Folder::new("tails-named");
    let file = folder.file("sheet.sxf");
    for (name, field) in FIELDS {
        fs::write(&file, changed(field.after() - 1, b"\xC0")).expect("a file");
        let checked = out(&on("check", &file, &[]));
        assert!(checked.lines().count() == 2 && checked.contains(&format!(": {name} has old letters ")), "{checked}");
        let shown = out(&on("show", &file, &[]));
        let under = if name == "designation2" { "designation (data)" } else { name };
        let lines: Vec<&str> = shown.lines().collect();
        let at = lines.iter().position(|line| line.starts_with("  old letters ")).expect("a line");
        assert!(lines[at - 1].starts_with(&format!("{under} ")) && shown.matches("old letters").count() == 1, "{shown}");
        let table = on("table", &file, &[]).stdout;
        let head = String::from_utf8(table.clone()).expect("UTF-8");
        assert!(head.matches("_tail\":\"").count() == 1 && head.contains(&format!("\"{name}_tail\":\"00")), "{head}");
        let line = told(&write(&table, &folder.file("again.sxf"), &["--force"]));
        assert!(line.starts_with(&format!("sxf: -: {name} had old letters ")) && line.ends_with("А\" (Windows)\n"), "{line}");
        let cleaned = told(&clean(&file, &folder.file("again.sxf"), &["--force"]));
        assert_eq!(cleaned.replace(&format!("{}", file.display()), "-"), line);
        assert!(fs::read(folder.file("again.sxf")).expect("a sheet") == fs::read(sample("Q")).expect("a sample"), "{name}");
    }
}

/// What stands there need not be letters: no byte of it ends or steers the line.
#[test]
fn old_letters_are_shown_as_texts_are() {
    let folder = Folder::new("tails-escaped");
    fs::write(folder.file("sheet.sxf"), changed(passport::TITLE.place, b"A\0\n\x1B[2J\x98\"\\\0\xC0")).expect("a file");
    let letters = r#""\n\u{1b}[2J\x98\"\\\u{0}А" (Windows)"#;
    for word in ["check", "show"] {
        let lines = out(&on(word, &folder.file("sheet.sxf"), &[]));
        assert_eq!(lines.lines().filter(|line| line.ends_with(letters)).count(), 1, "{lines}");
    }
    let line = told(&clean(&folder.file("sheet.sxf"), &folder.file("clean.sxf"), &[]));
    assert!(line.ends_with(&format!(", which are cleared: {letters}\n")), "{line}");
}

#[test]
fn clean_writes_the_cleared_sheet_and_tells_what_it_cleared() {
    let folder = Folder::new("cleaned");
    let (sheet, file) = (sample("old-letters"), folder.file("clean.sxf"));
    let output = clean(&sheet, &file, &[]);
    assert_eq!((status(&output), out(&output), error(&output)), (0, String::new(), told_cleared(&sheet.display().to_string())));
    let written = fs::read(&file).expect("a sheet");
    assert!(written == cleared(&fs::read(&sheet).expect("a sample")));
    let checked = on("check", &file, &[]);
    assert_eq!(out(&checked), format!("{}: accepted at 2017: 492 bytes, sum 4209, records 1\n", file.display()));
    // By standard input and output the same.
    let output = fed(&mut sxf(&["clean", "-", "-o", "-"]), &fs::read(&sheet).expect("a sample"));
    assert_eq!((status(&output), output.stdout == written, error(&output)), (0, true, told_cleared("-")));
    assert_eq!(folder.names(), ["clean.sxf"]);
}

#[test]
fn clean_writes_a_clean_sheet_as_it_was() {
    let folder = Folder::new("clean-already");
    for name in ACCEPTED.into_iter().filter(|name| !DIRTY.contains(name)) {
        let output = clean(&sample(name), &folder.file("clean.sxf"), &["--force"]);
        assert_eq!((status(&output), output.stdout.len()), (0, 0), "{name}");
        let line = told(&output);
        assert!(line.ends_with(": no text field has old letters after its first zero; the sheet is written as it was\n"), "{line}");
        assert!(fs::read(folder.file("clean.sxf")).expect(name) == fs::read(sample(name)).expect(name), "{name}");
    }
}

/// By the rules under which `sxf write` writes. Who asks for it by `--force` may have the sheet itself cleaned.
#[test]
fn clean_replaces_a_file_only_by_force() {
    let folder = Folder::new("clean-force");
    let file = folder.file("sheet.sxf");
    let dirty = fs::read(sample("old-letters")).expect("a sample");
    fs::write(&file, &dirty).expect("a file");
    let output = clean(&file, &file, &[]);
    assert_eq!(status(&output), 2);
    assert!(told(&output).ends_with("cannot be written: it is there already; --force replaces it\n"), "{}", told(&output));
    assert!(fs::read(&file).expect("a sheet") == dirty);
    assert_eq!(status(&clean(&file, &file, &["--force"])), 0);
    assert!(fs::read(&file).expect("a sheet") == cleared(&dirty));
    assert_eq!(folder.names(), ["sheet.sxf"]);
}

/// With the line that `sxf check` has for it, and nothing is written, also over a file that is there.
#[test]
fn clean_refuses_what_check_refuses() {
    let folder = Folder::new("clean-refused");
    let refused = |name: &str, more: &[&str]| {
        let output = clean(&sample(name), &folder.file("clean.sxf"), &[&["--force"], more].concat());
        assert_eq!((status(&output), output.stdout.len()), (1, 0), "{name}");
        assert_eq!(told(&output), told(&on("check", &sample(name), more)), "{name}");
    };
    REFUSED.iter().for_each(|name| refused(name, &[]));
    refused("dated", &["--year", "2004"]);
    assert_eq!(folder.names(), [""; 0]);
    fs::write(folder.file("clean.sxf"), b"old").expect("a file");
    refused("no-zero", &[]);
    assert_eq!(fs::read(folder.file("clean.sxf")).expect("the file"), b"old");
}

/// Ways in which nothing can be told on standard error: it is closed, full, or open only for reading.
const UNTOLD: [&str; 3] = ["2>&-", "2>/dev/full", "2</dev/null"];

/// The letters would be lost without a word.
#[test]
fn what_cannot_be_told_is_not_cleared() {
    let folder = Folder::new("tails-untold");
    let [sheet, lines] = [fs::read(sample("old-letters")).expect("a sample"), on("table", &sample("old-letters"), &[]).stdout];
    fs::write(folder.file("sheet.sxf"), &sheet).expect("a file");
    fs::write(folder.file("lines.json"), &lines).expect("a file");
    for how in UNTOLD {
        for words in [["clean", "sheet.sxf"], ["write", "lines.json"]] {
            for to in [&["-o", "sheet.sxf", "--force"][..], &["-o", words[1], "--force"], &["-o", "new.sxf"], &["-o", "-"]] {
                let output = redirected(&folder, how, &[&words, to].concat());
                assert_eq!((status(&output), output.stdout.len()), (2, 0), "{words:?} {to:?} {how}");
                assert_eq!(folder.names(), ["lines.json", "sheet.sxf"], "{words:?} {to:?} {how}");
                assert!(fs::read(folder.file("sheet.sxf")).expect("the sheet") == sheet, "{words:?} {to:?} {how}");
                assert!(fs::read(folder.file("lines.json")).expect("the lines") == lines, "{words:?} {to:?} {how}");
            }
        }
    }
}

/// `sxf clean` has something to tell of a clean sheet too; `sxf write` has not.
#[test]
fn where_nothing_is_to_be_told_no_standard_error_is_needed() {
    let folder = Folder::new("tails-nothing-told");
    fs::write(folder.file("q.json"), on("table", &sample("Q"), &[]).stdout).expect("a file");
    let q = sample("Q").to_string_lossy().into_owned();
    for how in UNTOLD {
        assert_eq!(status(&redirected(&folder, how, &["clean", &q, "-o", "q.sxf"])), 2, "{how}");
        assert_eq!(folder.names(), ["q.json"], "{how}");
        assert_eq!(status(&redirected(&folder, how, &["write", "q.json", "-o", "q.sxf"])), 0, "{how}");
        assert!(fs::read(folder.file("q.sxf")).expect("a sheet") == fs::read(sample("Q")).expect("a sample"), "{how}");
        fs::remove_file(folder.file("q.sxf")).expect("the file");
    }
}

/// The letters stand at the end of a line that begins with the name.
#[test]
fn a_long_name_does_not_cut_the_letters_off() {
    let folder = Folder::new("tails-long-name");
    let long = |name: &str| folder.file(&"./".repeat(1000)).join(name);
    fs::write(folder.file("sheet.sxf"), fs::read(sample("old-letters")).expect("a sample")).expect("a file");
    fs::write(folder.file("lines.json"), on("table", &sample("old-letters"), &[]).stdout).expect("a file");
    for (word, file) in [("clean", long("sheet.sxf")), ("write", long("lines.json"))] {
        let output = on(word, &file, &["-o", "-"]);
        assert!(file.as_os_str().len() > 2000);
        assert_eq!((status(&output), error(&output)), (0, told_cleared(&file.display().to_string())), "{word}");
    }
}

/// A name of a file steers no terminal and begins no line, of an answer as of a failure.
#[test]
fn the_name_of_a_file_is_shown_with_escapes() {
    let folder = Folder::new("tails-name");
    let file = folder.file("a\n\x1B[2J.sxf");
    fs::write(&file, fs::read(sample("old-letters")).expect("a sample")).expect("a file");
    let shown = format!("{}: ", folder.file(r"a\n\u{1b}[2J.sxf").display());
    let checked = out(&on("check", &file, &[]));
    assert!(checked.lines().count() == 5 && checked.lines().all(|line| line.starts_with(&shown)), "{checked:?}");
    let cleaned = error(&clean(&file, Path::new("-"), &[]));
    assert_eq!(cleaned, told_cleared(shown.trim_end_matches(": ")));
}

/// The lines have what stands after the first zero, as bytes, beside the text; `sxf write` does not write it, and tells so.
#[test]
fn tails_stand_in_the_lines_and_are_not_written() {
    let folder = Folder::new("tails-lines");
    let table = on("table", &sample("old-letters"), &[]).stdout;
    let head = String::from_utf8(table.clone()).expect("UTF-8");
    let tail = |letters: &str, zeros: usize| format!("_tail\":\"{letters}{}\",", "00".repeat(zeros));
    for field in [
        format!("\"date\":\"16.11.26\",\"date{}", tail("35", 2)),
        format!("\"designation\":\"N-37-004\",\"designation{}", tail("c02de1", 20)),
        format!("\"title\":\"Мост\",\"title{}", tail("edfbe920e1e5f0e5e32c20a8ebeae8edee", 10)),
        format!("\"designation2\":\"\",\"designation2{}", tail("2d33372d303132", 24)),
    ] {
        assert!(head.contains(&field), "{field}: {head}");
    }
    let written = write(&table, &folder.file("again.sxf"), &[]);
    assert_eq!((status(&written), out(&written), error(&written)), (0, String::new(), told_cleared("-")));
    let sheet = fs::read(sample("old-letters")).expect("a sample");
    assert!(fs::read(folder.file("again.sxf")).expect("a sheet") == cleared(&sheet));
    let by_bytes = on("table", &sample("old-letters"), &["--bytes"]).stdout;
    let written = write(&by_bytes, Path::new("-"), &[]);
    assert_eq!((status(&written), written.stdout == cleared(&sheet), error(&written)), (0, true, told_cleared("-")));
}

/// A tail of zeros, or of nothing, is clean, and nothing is told of it. What is refused is told alone.
#[test]
fn a_tail_in_the_lines_is_told_only_where_it_is_cleared() {
    let folder = Folder::new("tails-told");
    for tail in ["", "00", "0000"] {
        let lines = changed_in("Q", "\"title\":\"\"", &format!("\"title\":\"\",\"title_tail\":\"{tail}\""));
        let output = write(&lines, Path::new("-"), &[]);
        assert_eq!((status(&output), error(&output)), (0, String::new()), "{tail}");
        assert!(output.stdout == fs::read(sample("Q")).expect("a sample"), "{tail}");
    }
    let refused = changed_in("old-letters", "\"reference\":0", "\"reference\":15");
    is_told(&folder, 1, &refused, "refusal 7 RESERVED");
    for (to, words) in [
        ("\"title_tail\":\"c\"", "hexadecimal digits, two a byte"),
        ("\"title_tail\":null", "hexadecimal digits, two a byte"),
        ("\"scale_tail\":\"00\"", "unknown field `scale_tail`"),
    ] {
        is_told(&folder, 2, &changed_in("Q", "\"title\":\"\"", &format!("\"title\":\"\",{to}")), words);
    }
}

/// A tail stands behind its text's zero, so it is shorter than its field, whatever it has.
#[test]
fn a_tail_that_its_field_cannot_hold_is_no_line() {
    let folder = Folder::new("tails-too-long");
    for (name, field) in FIELDS {
        let lines =
            |byte: &str, length| changed_in("Q", "\"flags\":", &format!("\"{name}_tail\":\"{}\",\"flags\":", byte.repeat(length)));
        let output = write(&lines("c0", field.width - 1), Path::new("-"), &[]);
        let letters = format!(": \"{}\" (Windows)\n", "А".repeat(field.width - 1));
        assert!(status(&output) == 0 && told(&output).ends_with(&letters), "{}", told(&output));
        let words = format!(
            "sxf: -: line 1: the head: {name}_tail has {} bytes, where it has at most {} in a sheet\n",
            field.width,
            field.width - 1
        );
        is_told(&folder, 2, &lines("c0", field.width), &words);
        is_told(&folder, 2, &lines("00", field.width), &words);
    }
}
