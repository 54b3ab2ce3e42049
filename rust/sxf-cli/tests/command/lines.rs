//! The JSON lines: what is printed, and what is taken.
use crate::run::{changed_in, is_told, on, out, sample, status, told, write, Folder, ACCEPTED, DIRTY};
use second::cleared;
use std::fs;
use sxf::{row, Head, Reference, Setting, TableRef};

/// But for old letters in a tail, which are cleared, and told on standard error.
#[test]
fn what_table_prints_is_written_back_byte_for_byte() {
    let folder = Folder::new("round");
    for name in ACCEPTED {
        let file = folder.file(name);
        let table = on("table", &sample(name), &[]);
        let written = write(&table.stdout, &file, &[]);
        assert_eq!((status(&written), !written.stderr.is_empty()), (0, DIRTY.contains(&name)), "{name}");
        let (again, sheet) = (fs::read(&file).expect(name), fs::read(sample(name)).expect(name));
        assert_eq!((again == cleared(&sheet), again != sheet), (true, DIRTY.contains(&name)), "{name}");
    }
    let mut names: Vec<_> = ACCEPTED.map(String::from).into();
    names.sort();
    assert_eq!(folder.names(), names, "and no other file is left");
}

#[test]
fn a_sheet_is_written_for_a_year() {
    let folder = Folder::new("year");
    let table = on("table", &sample("dated"), &[]).stdout;
    let refused = write(&table, &folder.file("dated.sxf"), &["--year", "2004"]);
    assert_eq!(status(&refused), 1);
    assert!(told(&refused).contains("refusal 8 TOO NEW at 98 (0x62)") && told(&refused).contains("(the head; "));
    assert_eq!(folder.names(), [""; 0]);
}

/// A sheet of one record whose one part has these elements.
fn sheet_of(reference: u32, elements: &[u64]) -> Vec<u8> {
    let points = elements.len() / Reference(reference).elements();
    let record = row::Record { reference: reference.into(), parts: 1, ..row::Record::default() };
    let part = row::Part { points: points as u64, text_length: 0 };
    let numbers = [&record.numbers()[..], &part.numbers()].concat();
    sxf::write(&Head::PLAIN, TableRef { numbers: &numbers, elements, bytes: &[] }, Setting::Y2017).expect("a sheet")
}

/// The points of such a sheet, as its lines have them.
fn points_of(folder: &Folder, reference: u32, elements: &[u64]) -> String {
    fs::write(folder.file("sheet.sxf"), sheet_of(reference, elements)).expect("a file");
    let table = out(&on("table", &folder.file("sheet.sxf"), &[]));
    let points = table.split("\"points\":").nth(1).and_then(|after| after.split('}').next());
    points.expect("points").to_string()
}

const LONG: u32 = Reference::ELEMENT_SIZE;
const SINGLE: u32 = Reference::FLOATING;
const DOUBLE: u32 = Reference::FLOATING | Reference::ELEMENT_SIZE;

/// Integers are integers, floating numbers the shortest decimal, and what decimals do not carry safely its bits.
#[test]
fn elements_are_numbers_or_bits() {
    let folder = Folder::new("elements");
    let stated = |reference, elements: &[u64], points: &str| assert_eq!(points_of(&folder, reference, elements), points);
    stated(0, &[0, 0xFFFF], "[[0,65535]]");
    stated(LONG, &[0xFFFF_FFFF, 0x8000_0000, 0x7FFF_FFFF, 1], "[[-1,-2147483648],[2147483647,1]]");
    stated(SINGLE, &[0x3DCC_CCCD, 1, 0x3F80_0000, 0x7F7F_FFFF], "[[0.1,1e-45],[1,3.4028235e38]]");
    stated(
        SINGLE,
        &[0x8000_0000, 0x7F80_0000, 0x7F80_0001, 0xFFC0_0000],
        r#"[["0x80000000","0x7f800000"],["0x7f800001","0xffc00000"]]"#,
    );
    stated(
        DOUBLE,
        &[0x3FB9_9999_9999_999A, 1, 0xBFF0_0000_0000_0000, 0x7FEF_FFFF_FFFF_FFFF],
        "[[0.1,5e-324],[-1,1.7976931348623157e308]]",
    );
    stated(DOUBLE, &[1 << 63, 0xFFF0_0000_0000_0000], r#"[["0x8000000000000000","0xfff0000000000000"]]"#);
    stated(DOUBLE, &[0x7FF0_0000_0000_0001, 0x7FF8_0000_0000_0000], r#"[["0x7ff0000000000001","0x7ff8000000000000"]]"#);
    stated(Reference::THREE_DIMENSIONS, &[3, 4, 0x3DCC_CCCD], "[[3,4,0.1]]");
}

/// 7.038531e-26 is the shortest decimal of this single as such, but a tool that keeps doubles would make another single of it.
#[test]
fn a_decimal_that_a_double_rounds_to_another_single_has_a_digit_more() {
    let folder = Folder::new("halfway");
    assert_eq!(points_of(&folder, SINGLE, &[0x15AE_43FD, 0x15AE_43FE]), "[[7.0385307e-26,7.0385313e-26]]");
    assert_eq!(f64::from_bits(0x3AB5_C87F_B000_0000), 7.038531e-26);
    assert_eq!(7.038531e-26_f64 as f32, f32::from_bits(0x15AE_43FE));
}

/// An element may be written in any way that reads as the number it is; what would have to be rounded is refused.
#[test]
fn elements_are_taken_by_what_they_are() {
    let folder = Folder::new("taken");
    let (file, sheet) = (folder.file("made.sxf"), folder.file("sheet.sxf"));
    let taken = |reference, elements: &[u64], written: &str| {
        let points = points_of(&folder, reference, elements);
        let table = out(&on("table", &sheet, &[])).replace(&points, &format!("[{written}]"));
        let output = write(table.as_bytes(), &file, &["--force"]);
        if output.status.success() {
            Ok(fs::read(&file).expect("a sheet") == fs::read(&sheet).expect("a sheet"))
        } else {
            assert_eq!(status(&output), 2);
            Err(told(&output))
        }
    };
    for (reference, elements, written) in [
        (0, [3, 65535], "[3.0,6.5535e4]"),
        (LONG, [0xFFFF_FFFF, 1_000_000_000], "[-1.0e0,1E+9]"),
        (SINGLE, [0x3DCC_CCCD, 0x4F80_0000], "[0.10000000149011612,4294967296]"),
        (SINGLE, [0x3DCC_CCCD, 0x8000_0000], "[0.1000000000000000055511151231257827021181583404541015625,-0]"),
        (SINGLE, [0x3DCC_CCCD, 0x7FC0_0000], r#"["0x3dcccccd","0x7FC00000"]"#),
        (DOUBLE, [0x43E0_0000_0000_0001, 1 << 63], "[9223372036854777856,-0.0]"),
        (DOUBLE, [0x43F0_0000_0000_0000, 1], "[18446744073709551616,4.9406564584124654e-324]"),
    ] {
        assert_eq!(taken(reference, &elements, written), Ok(true), "{written}");
    }
    for (reference, written, line) in [
        (0, "[3,65536]", "65536 is none of the integers of 2 bytes, 0 to 65535"),
        (0, "[3,-1]", "-1 is none of the integers of 2 bytes, 0 to 65535"),
        (0, "[3,0.5]", "0.5 is none of the integers of 2 bytes"),
        (0, "[3,-0]", "-0.0 is none of the integers of 2 bytes"),
        (0, r#"[3,"0x00000001"]"#, "0x00000001 is none of the integers of 2 bytes"),
        (LONG, "[3,2147483648]", "2147483648 is none of the integers of 4 bytes, -2147483648 to 2147483647"),
        (SINGLE, "[3,0.30000000000000004]", "0.30000000000000004 is none of the floating numbers of 4 bytes; the nearest is 0.3"),
        (SINGLE, "[3,1e39]", "1e39 is none of the floating numbers of 4 bytes; the nearest is 3.4028235e38"),
        (SINGLE, "[3,16777217]", "16777217 is none of the floating numbers of 4 bytes; the nearest is 16777216.0"),
        (
            SINGLE,
            r#"[3,"0x7ff8000000000000"]"#,
            "0x7ff8000000000000 is none of the floating numbers of 4 bytes; their bits have 8 digits",
        ),
        (DOUBLE, r#"[3,"0x7fc00000"]"#, "0x7fc00000 is none of the floating numbers of 8 bytes; their bits have 16 digits"),
        (
            DOUBLE,
            "[3,1e400]",
            "1e400, where a number that a double holds should be, or a string of 0x and the 8 or 16 hexadecimal digits",
        ),
        (DOUBLE, "[3,null]", "null, where a number that a double holds should be"),
        (DOUBLE, "[3,[4,\n5]]", "a list, where a number that a double holds should be"),
        (DOUBLE, "[3,{\"x\":\n4}]", "an object, where a number that a double holds should be"),
        (DOUBLE, r#"[3,"7ff8000000000000"]"#, "\"7ff8000000000000\", where a number that a double holds should be"),
        (DOUBLE, r#"[3,"0x+ff8000000000000"]"#, "\"0x+ff8000000000000\", where a number that a double holds should be"),
        (DOUBLE, "[3,4],[5,6,7]", "a point of 3 numbers after points of 2"),
        (DOUBLE, "[3]", "expected a point, a list of two or three numbers"),
        (DOUBLE, "[3,4,5,6]", "expected a point, a list of two or three numbers"),
        (DOUBLE, "3,4", "expected a point, a list of two or three numbers"),
    ] {
        let refused = taken(reference, &[1, 2], written).expect_err(written);
        assert!(refused.contains("-: line ") && refused.contains(line), "{written}: {refused}");
    }
}

/// Numbers of the record table may come back from a tool as doubles too.
#[test]
fn integers_are_taken_by_what_they_are() {
    let folder = Folder::new("integers");
    let file = folder.file("q.sxf");
    for (from, to) in [
        ("\"format\":3", "\"format\":3.0"),
        ("\"scale\":0", "\"scale\":0e5"),
        ("\"records\":1", "\"records\":10e-1"),
        ("\"reference\":514", "\"reference\":5.14000000000000000e+02"),
        ("\"scale\":255,", "\"scale\":2.55e2,"),
    ] {
        assert_eq!(status(&write(&changed(from, to), &file, &["--force"])), 0, "{to}");
        assert!(fs::read(&file).expect("a sheet") == fs::read(sample("Q")).expect("a sample"), "{to}");
    }
}

/// The table of Q as it was printed before its head had a `format`, and a record of the second format, which has a label's bytes as `text`; of the
/// rest there is one byte.
const OLD_HEAD: &str = "{\"sxf\":\"4.0\",\"date\":\"\",\"designation\":\"41\",\"scale\":0,\"title\":\"\",\"rest\":\"03\",\
                        \"designation2\":\"41\",\"flags\":\"03000000\",\"records\":1}\n";
const OLD_RECORD: &str = "{\"code\":0,\"number_in_group\":0,\"group_number\":0,\"reference\":514,\"generalisation\":255,\"word\":0,\
                          \"parts\":[{\"points\":1,\"elements\":[3,4]}],\"items\":[{\"code\":1,\"type\":2,\"scale\":255,\"value\":\"f904\"}]}\n";
const LABEL_RECORD: &str =
    "{\"code\":0,\"number_in_group\":0,\"group_number\":0,\"reference\":524291,\"generalisation\":255,\"word\":0,\
                            \"parts\":[{\"points\":[[3,4]]},{\"points\":[[3,4]],\"text\":\"414243\"}],\"items\":[]}\n";

/// The head, and a record under a head of today, whose stored bits would be taken for numbers, or its digits for characters.
#[test]
fn a_line_of_the_old_kind_is_refused() {
    let folder = Folder::new("old");
    let table = out(&on("table", &sample("Q"), &[]));
    let (head, record) = table.split_once('\n').expect("two lines");
    let sorted = OLD_RECORD.replace("\"points\":1,\"elements\":[3,4]", "\"elements\":[3,4],\"points\":1");
    let (bits, digits) = ("whose elements are stored bits, which tools round", "whose parts have hexadecimal digits as text");
    for (lines, number, why) in [
        (format!("{OLD_HEAD}{OLD_RECORD}"), 1, bits),
        (format!("{OLD_HEAD}{record}"), 1, bits),
        (format!("{head}\n{OLD_RECORD}"), 2, bits),
        (format!("{head}\n{sorted}"), 2, bits),
        (format!("{head}\n{LABEL_RECORD}"), 2, digits),
        (format!("{head}\n\n{}", LABEL_RECORD.replace("\"text\"", "\"label\":\"ABC\",\"text\"")), 3, digits),
    ] {
        let output = write(lines.as_bytes(), &folder.file("q.sxf"), &[]);
        assert_eq!(status(&output), 2);
        let line = told(&output);
        assert!(line.contains(&format!("-: line {number}: a line of the old kind, {why}; ")), "{line}");
        assert!(line.contains("print it again from its sheet by this `sxf table`"), "{line}");
    }
    assert_eq!(folder.names(), [""; 0]);
}

#[test]
fn a_byte_order_mark_is_named() {
    let folder = Folder::new("mark");
    let table = on("table", &sample("Q"), &[]).stdout;
    let (utf8, utf16): (&[u8], Vec<u8>) = (&[0xEF, 0xBB, 0xBF], table.iter().flat_map(|&byte| [byte, 0]).collect());
    for (lines, line, coding) in [
        ([utf8, &table].concat(), 1, "UTF-8"),
        ([&table, utf8, &table].concat(), 3, "UTF-8"),
        ([&[0xFF, 0xFE], &utf16[..]].concat(), 1, "UTF-16"),
        ([&[0xFE, 0xFF, 0], &utf16[..]].concat(), 1, "UTF-16"),
    ] {
        let output = write(&lines, &folder.file("q.sxf"), &[]);
        assert_eq!(status(&output), 2);
        let line = format!("line {line} begins with a byte-order mark of {coding}; save the lines as UTF-8 without one\n");
        assert!(told(&output).ends_with(&line), "{}", told(&output));
    }
    assert_eq!(folder.names(), [""; 0]);
}

/// What is no JSON line of a table, told in words that say so.
#[test]
fn what_is_no_line_is_told() {
    let folder = Folder::new("no-line");
    let table = on("table", &sample("Q"), &[]).stdout;
    let slurped = format!("[{}]", String::from_utf8_lossy(&table).trim_end().replace('\n', ",")).into_bytes();
    for (lines, line) in [
        (fs::read(sample("Q")).expect("a sample"), "-: line 1 is a sheet's, and not its lines; `sxf table` prints them\n"),
        (slurped, "invalid type: sequence, expected the head, an object\n"),
        (b"[]".to_vec(), "invalid type: sequence, expected the head, an object\n"),
        (b"null".to_vec(), "expected the head, an object\n"),
        ([&table[..], b"[1]"].concat(), "invalid type: sequence, expected a record, an object\n"),
    ] {
        let output = write(&lines, &folder.file("q.sxf"), &[]);
        assert_eq!(status(&output), 2);
        assert!(told(&output).ends_with(line), "{}", told(&output));
    }
    assert_eq!(folder.names(), [""; 0]);
}

/// A value over several lines is one value, and what is wrong with it is told with the line it stands on.
#[test]
fn a_value_may_go_over_several_lines() {
    let folder = Folder::new("several");
    let broken = changed("[[3,4]]", "[\n[3,\n4]\n\n]");
    assert_eq!(status(&write(&broken, &folder.file("q.sxf"), &[])), 0);
    assert!(fs::read(folder.file("q.sxf")).expect("a sheet") == fs::read(sample("Q")).expect("a sample"));
    let broken = changed("[[3,4]]", "[\n[3,\nnull]\n\n]");
    let line = told(&write(&broken, &folder.file("r.sxf"), &[]));
    assert!(line.contains("line 4: column 5: null, where a number that a double holds should be"), "{line}");
    // Brackets and quotation marks in a string are none of the value's.
    let strings = changed("\"sxf\":\"4.0\",", "\"sxf\":\"4]\\\"}\",\n");
    let line = told(&write(&strings, &folder.file("r.sxf"), &[]));
    assert!(line.contains("the head: sxf is \"4]\\\"}\", where this writes \"4.0\""), "{line}");
    assert_eq!(folder.names(), ["q.sxf"]);
}

/// Lines of the table of Q, with something put in place of something else.
fn changed(from: &str, to: &str) -> Vec<u8> {
    changed_in("Q", from, to)
}

/// Each change of Q's table ends with this exit status, is told with these words, and leaves no file.
fn each_is_told(folder: &str, ends: i32, cases: &[(&str, &str, &str)]) {
    let folder = Folder::new(folder);
    cases.iter().for_each(|(from, to, words)| is_told(&folder, ends, &changed(from, to), words));
}

#[test]
fn a_refused_table_is_told_with_its_line() {
    // A first part of so many points needs the mark, and under it the word is their count.
    let many = format!("[{}]", vec!["[3,4]"; 65535].join(","));
    let cases = [
        // This is no reference number, and does not say how elements are stored, so they are not judged by it.
        (
            "\"reference\":514,\"generalisation\":255,\"word\":0,\"parts\":[{\"points\":[[3,",
            "\"reference\":16777730,\"generalisation\":255,\"word\":0,\"parts\":[{\"points\":[[0.5,",
            "refusal 14 TABLE at 3 (0x3): the record table is not well formed here (line 2, record 0, reference bytes)",
        ),
        (
            "\"reference\":514",
            "\"reference\":18446744073709551615",
            "refusal 14 TABLE at 3 (0x3): the record table is not well formed here (line 2, record 0, reference bytes)",
        ),
        ("\"reference\":514", "\"reference\":2", "(line 2, record 0, items)"),
        ("\"f904\"", "\"f9\"", "(line 2, record 0, item 0, value length)"),
        (
            "[[3,4]]",
            &many,
            "refusal 11 COUNT at 9 (0x9): word is 0; under the mark, which 65535 points need, it must be 65535, the first part's points \
             (line 2, record 0, part 0, points)\n",
        ),
        ("[[3,4]]", "[[3,4]],\"label\":\"A\"", "(line 2, record 0, part 0, text length)"),
        ("[[3,4]]", "[[3,4]],\"label_bytes\":\"41\"", "(line 2, record 0, part 0, text length)"),
        ("\"type\":2", "\"type\":3", "refusal 12 SEMANTIC at 12 (0xc)"),
        ("\"designation\":\"A\"", "\"designation\":\"A\\u0000\"", "refusal 6 TEXT at 28 (0x1c)"),
        ("\"designation\":\"A\"", "\"designation_bytes\":\"4100\"", "refusal 6 TEXT at 28 (0x1c)"),
    ];
    each_is_told("refused", 1, &cases);
}

#[test]
fn bad_json_is_told_with_its_line() {
    let cases = [
        ("\"code\":0", "\"cod\":0", "line 2: column 6: unknown field `cod`"),
        ("\"word\":0,", "", "line 2: column "),
        ("\"word\":0,", "\"word\":-1,", "line 2: column 93: -1, where an integer of at most 64 bits, from 0 on, should be"),
        ("\"word\":0,", "\"word\":0.5,", "line 2: column 94: 0.5, where an integer of at most 64 bits, from 0 on, should be"),
        ("\"word\":0,", "\"word\":\"0\",", "line 2: column 94: \"0\", where an integer of at most 64 bits, from 0 on, should be"),
        ("\"word\":0,", "\"word\":18446744073709551616,", "line 2: column "),
        (
            "\"word\":0,",
            "\"word\":0,\"mark\":null,",
            "line 2: column 104: null, where an integer of at most 64 bits, from 0 on, should be",
        ),
        (
            "\"word\":0,",
            "\"word\":0,\"mark\":true,",
            "line 2: column 104: true, where an integer of at most 64 bits, from 0 on, should be",
        ),
        ("\"word\":0,", "\"word\":0,\"mark\":0,\"mark\":0,", "duplicate field `mark`"),
        ("\"f904\"", "\"f90\"", "hexadecimal digits, two a byte"),
        ("[3,4]", "[3,4,5]", "line 2: part 0: points of 3 numbers, where the record's have 2"),
        ("[3,4]", "[3,65536]", "line 2: part 0: point 0: 65536 is none of the integers of 2 bytes, 0 to 65535"),
        ("\"format\":3", "\"format\":4", "line 1: format is 4, where this reads 3; write the sheet by the sxf that printed it"),
        ("\"format\":3", "\"format\":2", "line 1: format is 2, where this reads 3; write the sheet by the sxf that printed it"),
        ("\"format\":3,", "\"format\":4,\"more\":0,", "line 1: format is 4, where this reads 3"),
        ("\"format\":3", "\"format\":\"3\"", "line 1: format is \"3\", where this reads 3"),
        (
            "\"scale\":0",
            "\"scale\":4294967296",
            "line 1: column 70: 4294967296, where an integer of at most 32 bits, from 0 on, should be",
        ),
        ("\"code\":0", "\"\\n\\u001b[2J\":0", "unknown field `\\n\\u{1b}[2J`"),
        ("\"flags\":\"03000000\"", "\"flags\":\"0300\"", "line 1: the head: flags has 2 bytes, where it has 4 in a sheet"),
        ("\"sxf\":\"4.0\"", "\"sxf\":\"5.0\"", "line 1: the head: sxf is \"5.0\""),
        ("\"records\":1", "\"records\":2", "records are 1, where the head says 2"),
        ("}]}\n", "", "line 2: column "),
        ("{\"points\":[[3,4]]}", "[[[3,4]]]", "line 2: column 102: invalid type: sequence, expected a part, an object"),
    ];
    each_is_told("json", 2, &cases);
    let folder = Folder::new("no-json");
    for none in [&b""[..], b"\n\n"] {
        assert!(told(&write(none, &folder.file("q.sxf"), &[])).contains("no line, where the head should be"));
    }
    assert_eq!(folder.names(), [""; 0]);
}
