//! The mark 65535 of a record: `show` says it, a line has it where it is 1, and where a line has none the points say whether it is needed.
use crate::run::{changed_in, is_told, on, out, sample, status, sxf, told, write, Folder};
use std::fs;
use sxf::fields::{header, Field, START};
use sxf::{row, Head, Setting, TableRef};

/// A sheet of one record under the mark, with parts of so many points.
pub fn marked(counts: &[u64]) -> Vec<u8> {
    let record = row::Record { reference: 1, word: counts[0], parts: counts.len() as u64, mark: 1, ..row::Record::default() };
    let parts = counts.iter().flat_map(|&points| row::Part { points, text_length: 0 }.numbers());
    let numbers: Vec<u64> = record.numbers().into_iter().chain(parts).collect();
    let elements = vec![7; 2 * counts.iter().sum::<u64>() as usize];
    sxf::write(&Head::PLAIN, TableRef { numbers: &numbers, elements: &elements, bytes: &[] }, Setting::Y2004).expect("a sheet")
}

/// The points at +30 of a sheet's first record, and its word at +24.
fn stored(sheet: &[u8]) -> (usize, usize) {
    let number = |field: Field| sheet[field.at(START).range()].iter().rev().fold(0, |all, &byte| all << 8 | usize::from(byte));
    (number(header::POINTS), number(header::WORD))
}

/// The sheet that these lines give.
fn written(folder: &Folder, lines: &[u8]) -> Vec<u8> {
    let output = write(lines, &folder.file("made.sxf"), &["--force"]);
    assert_eq!(status(&output), 0, "{output:?}");
    fs::read(folder.file("made.sxf")).expect("a sheet")
}

/// The mark says what the word is; without the mark the word is told by itself.
#[test]
fn the_mark_is_shown() {
    let shown = |number| out(&on("show", &sample("mark-small"), &["--record", number]));
    let (lake, beside) = (shown("0"), shown("1"));
    assert!(lake.contains("\n  mark 65535: the word at +24 is the first part's points\n  part 0, points 4\n"), "{lake}");
    assert_eq!(lake.matches("word").count(), 1, "{lake}");
    assert!(beside.contains("\n  word at +24 4\n  part 0, points 4\n") && !beside.contains("mark"), "{beside}");
}

#[test]
fn a_line_has_the_mark_where_it_is_1() {
    let table = out(&on("table", &sample("mark-small"), &[]));
    let has = |field: &str| table.lines().map(|line| line.contains(field)).collect::<Vec<_>>();
    assert_eq!(has("\"word\":4,\"mark\":1,\"parts\":"), [false, true, false]);
    assert_eq!(has("\"word\":4,\"parts\":"), [false, false, true]);
}

/// So lines from before there was a `mark` give the sheet that they gave. A stated 0 is kept, and the count that needs the mark is told.
#[test]
fn a_line_without_a_mark_has_it_where_its_points_need_it() {
    let folder = Folder::new("mark-needed");
    for (counts, part) in [(&[65_535][..], 0), (&[10, 65_536], 1), (&[10, 1, 70_000], 2)] {
        let sheet = folder.file("marked.sxf");
        fs::write(&sheet, marked(counts)).expect("a file");
        let table = out(&on("table", &sheet, &[]));
        assert!(table.contains("\"mark\":1,"), "{counts:?}");
        assert!(written(&folder, table.replace("\"mark\":1,", "").as_bytes()) == marked(counts), "{counts:?}");
        let refused = write(table.replace("\"mark\":1,", "\"mark\":0,").as_bytes(), &folder.file("none.sxf"), &[]);
        let (index, points) = (row::ROW_WIDTH + part * row::PART_WIDTH, counts[part]);
        let meaning = format!("mark is 0; {points} points need it to be 1 (line 2, record 0, part {part}, points)");
        assert_eq!(told(&refused), format!("sxf: -: refusal 11 COUNT at {index} ({index:#x}): {meaning}\n"));
    }
}

/// Also where the line has no mark, and the long island makes it need one: the user is led to the word.
#[test]
fn a_wrong_word_is_told_with_the_one_that_it_must_be() {
    let folder = Folder::new("mark-word");
    let sheet = folder.file("island.sxf");
    fs::write(&sheet, marked(&[10, 70_000])).expect("a file");
    let table = out(&on("table", &sheet, &[]));
    fs::remove_file(&sheet).expect("the file is there");
    for mark in ["", "\"mark\":1,"] {
        let lines = table.replace("\"word\":10,\"mark\":1,", &format!("\"word\":0,{mark}"));
        let words = "refusal 11 COUNT at 9 (0x9): word is 0; under the mark, which 70000 points need, it must be 10, the first part's points \
                     (line 2, record 0, part 0, points)\n";
        is_told(&folder, 1, lines.as_bytes(), words);
    }
    for word in ["0", "2", "65535"] {
        let words =
            format!("): word is {word}; under the mark it must be 1, the first part's points (line 2, record 0, part 0, points)\n");
        is_told(&folder, 1, &changed_in("Q", "\"word\":0,", &format!("\"word\":{word},\"mark\":1,")), &words);
    }
}

/// The numbers told are those of the record that is refused.
#[test]
fn a_later_record_is_told_by_its_own_numbers() {
    let folder = Folder::new("mark-later");
    let without = "\"word\":4,\"parts\":";
    let words = "): word is 5; under the mark it must be 4, the first part's points (line 3, record 1, part 0, points)\n";
    is_told(&folder, 1, &changed_in("mark-small", without, "\"word\":5,\"mark\":1,\"parts\":"), words);
    let words = "): mark is 3; it must be 0 or 1 (line 3, record 1, mark)\n";
    is_told(&folder, 1, &changed_in("mark-small", without, "\"word\":4,\"mark\":3,\"parts\":"), words);
}

/// A small count has the mark only where it is stated, and the word is taken as it stands.
#[test]
fn a_line_states_the_mark_of_a_small_count() {
    let folder = Folder::new("mark-stated");
    let lines = |mark: &str| changed_in("mark-small", "\"mark\":1,", mark);
    for (mark, points) in [("\"mark\":1.0,", 65_535), ("\"mark\":0,", 4), ("", 4)] {
        assert_eq!(stored(&written(&folder, &lines(mark))), (points, 4), "{mark}");
    }
    let asked = changed_in("Q", "\"word\":0,", "\"word\":1,\"mark\":1,");
    assert_eq!(stored(&written(&folder, &asked)), (65_535, 1));
    let years = out(&on("years", &folder.file("made.sxf"), &[]));
    assert_eq!(years, "2004 at 482 (0x1e2): the mark 65535; met first by 1999\naccepted from 2004 on\n");
    let early = write(&asked, &folder.file("early.sxf"), &["--year", "1999"]);
    let words =
        "refusal 8 TOO NEW at 8 (0x8): a feature here is later than the setting; it came in 2004 (line 2, record 0, mark)\n";
    assert!(told(&early).ends_with(words), "{}", told(&early));
    assert_eq!((status(&early), folder.names()), (1, vec!["made.sxf".to_string()]));
}

#[test]
fn a_mark_that_is_none_is_told() {
    let folder = Folder::new("mark-refused");
    for mark in ["2", "65535", "18446744073709551615"] {
        let lines = changed_in("Q", "\"word\":0,", &format!("\"word\":1,\"mark\":{mark},"));
        let words = format!("refusal 14 TABLE at 8 (0x8): mark is {mark}; it must be 0 or 1 (line 2, record 0, mark)\n");
        is_told(&folder, 1, &lines, &words);
    }
    // What is wrong before the mark is told first, by its own words.
    let lines = changed_in("Q", "\"word\":0,", "\"word\":4294967296,\"mark\":2,");
    is_told(&folder, 1, &lines, "): the record table is not well formed here (line 2, record 0, word at +24)\n");
}

#[test]
fn help_says_how_the_mark_stands() {
    let help = |word: &str| out(&sxf(&[word, "--help"]).output().expect("sxf runs"));
    assert!(help("table").contains("A record has `mark` 1 where its points at +30 are 65535"));
    assert!(help("write").contains("A record whose line has no `mark` has it where its points need it"));
    assert!(help("write").contains("so who changes the points of the first part under the mark changes `word` too"));
}
