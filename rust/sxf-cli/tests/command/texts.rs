//! Texts: how they are shown, and how they stand in the JSON lines.
use crate::run::{changed_in, is_told, on, out, sample, status, sxf, write, Folder};
use std::fs;
use sxf::fields::passport;
use sxf::{Head, Setting, TableRef};

/// The three sheets of Cyrillic, with the name of their labels' coding and the label of the second part.
const CYRILLIC: [(&str, &str, &str); 3] = [
    ("cyrillic-dos", "DOS", "Колодец № 5"),
    ("cyrillic-windows", "Windows", "Колодец № 5\\u{0}"),
    ("cyrillic-koi8", "KOI-8", "Ёлкино"),
];

#[test]
fn cyrillic_is_shown_with_its_coding() {
    for (name, coding, second) in CYRILLIC {
        let shown = out(&on("show", &sample(name), &[]));
        for line in [
            "date               \"16.11.2026\" (Windows)",
            "designation        \"N-37-004-А-б\" (Windows)",
            "designation (data) \"N-37-004-А-б\" (Windows)",
            "title              \"Северный берег, Ёлкино № 5\" (Windows)",
            &format!("label coding       {coding}"),
            &format!("    text \"Газопровод\" ({coding})"),
            &format!("    text \"{second}\" ({coding})"),
            "    text \"Ёлкино, колодец № 5\\u{0}\" (UTF-16)",
            "  item 0, code 8, type 0, scale byte 14: \"МОСКВА, Ёлкино\" (DOS)",
            "  item 1, code 9, type 126, scale byte 11: \"Колодец № 5\" (Windows)",
            "  item 2, code 10, type 127, scale byte 11: \"Река Москва\" (UTF-16)",
            "  item 3, code 11, type 128, scale byte 255: \"Ёлкино, колодец № 5 — у реки\" (UTF-16)",
        ] {
            assert_eq!(shown.lines().filter(|&shown| shown == line).count(), 1, "{name}: {line}\n{shown}");
        }
    }
}

#[test]
fn what_has_no_character_is_shown_as_an_escape() {
    let shown = out(&on("show", &sample("no-character"), &[]));
    for line in [
        r#"title              "Северный \x98 берег" (Windows)"#,
        r#"    text "Газ\x98" (Windows)"#,
        r#"    text "\u{d800} Газ" (UTF-16)"#,
        r#"    text "Газ\x98" (UTF-16)"#,
        r#"  item 0, code 1, type 0, scale byte 4: "ГазШ" (DOS)"#,
        r#"  item 1, code 2, type 126, scale byte 6: "Газ \x98\x98" (Windows)"#,
        r#"  item 2, code 3, type 127, scale byte 4: "Газ\u{d800}" (UTF-16)"#,
        r#"  item 3, code 4, type 128, scale byte 255: "\u{dc00} Газ" (UTF-16)"#,
    ] {
        assert_eq!(shown.lines().filter(|&shown| shown == line).count(), 1, "{line}\n{shown}");
    }
}

/// A head's line without the rest, which is long, and the lines of the records.
fn lines_of(name: &str) -> Vec<String> {
    let table = out(&on("table", &sample(name), &[]));
    let rest = table.split_once("\"rest\":\"").and_then(|(_, after)| after.split('"').next()).expect("a rest");
    table.replace(rest, "").lines().map(str::to_string).collect()
}

#[test]
fn texts_are_characters_in_the_lines() {
    for (number, (name, _, second)) in CYRILLIC.iter().enumerate() {
        let lines = [
            format!(
                r#"{{"sxf":"4.0","format":3,"date":"16.11.2026","designation":"N-37-004-А-б","scale":10000,"title":"Северный берег, Ёлкино № 5","rest":"","designation2":"N-37-004-А-б","flags":"030{number}0000","records":2}}"#
            ),
            format!(
                r#"{{"code":91000000,"number_in_group":1,"group_number":1,"reference":524803,"generalisation":255,"word":0,"parts":[{{"points":[[100,200]],"label":"Газопровод"}},{{"points":[[100,190],[140,190]],"label":"{}"}}],"items":[{{"code":8,"type":0,"text":"МОСКВА, Ёлкино"}},{{"code":9,"type":126,"text":"Колодец № 5"}},{{"code":10,"type":127,"text":"Река Москва"}},{{"code":11,"type":128,"text":"Ёлкино, колодец № 5 — у реки"}}]}}"#,
                second.replace("\\u{0}", "\\u0000")
            ),
            r#"{"code":91000001,"number_in_group":0,"group_number":0,"reference":528387,"generalisation":255,"word":0,"parts":[{"points":[[100,180]],"label":"Ёлкино, колодец № 5\u0000"}],"items":[]}"#.to_string(),
        ];
        assert_eq!(lines_of(name), lines, "{name}");
    }
}

#[test]
fn what_has_no_character_is_bytes_in_the_lines() {
    let lines = [
        r#"{"sxf":"4.0","format":3,"date":"","designation":"N-37","scale":0,"title_bytes":"d1e5e2e5f0edfbe9209820e1e5f0e5e3","rest":"","designation2":"N-37","flags":"03010000","records":2}"#,
        r#"{"code":0,"number_in_group":0,"group_number":0,"reference":524803,"generalisation":255,"word":0,"parts":[{"points":[[1,2]],"label_bytes":"c3e0e798"},{"points":[[3,4]],"label":"Газопровод"}],"items":[{"code":1,"type":0,"text":"ГазШ"},{"code":2,"type":126,"scale":6,"value":"c3e0e720989800"},{"code":3,"type":127,"scale":4,"value":"13043004370400d80000"},{"code":4,"type":128,"scale":255,"value":"00dc20001304300437040000"}]}"#,
        r#"{"code":0,"number_in_group":0,"group_number":0,"reference":528387,"generalisation":255,"word":0,"parts":[{"points":[[1,2]],"label_bytes":"00d82000130430043704"},{"points":[[3,4]],"label_bytes":"13043004370498"}],"items":[]}"#,
    ];
    assert_eq!(lines_of("no-character"), lines);
}

/// Each text of the head is characters or bytes on its own.
#[test]
fn each_text_of_the_head_may_be_bytes() {
    let folder = Folder::new("head-bytes");
    for number in 0..4 {
        let text = |of: usize| if of == number { &b"\x98"[..] } else { b"\xC3" };
        let head = Head { date: text(0), designation: text(1), title: text(2), designation2: text(3), ..Head::PLAIN };
        let sheet = sxf::write(&head, TableRef::default(), Setting::Y2017).expect("a sheet");
        fs::write(folder.file("head.sxf"), &sheet).expect("a file");
        let table = out(&on("table", &folder.file("head.sxf"), &[]));
        for (of, name) in ["date", "designation", "title", "designation2"].into_iter().enumerate() {
            let (bytes, characters) = (format!("\"{name}_bytes\":\"98\""), format!("\"{name}\":\"Г\""));
            assert_eq!((table.contains(&bytes), table.contains(&characters)), (of == number, of != number), "{name}: {table}");
        }
        assert_eq!(status(&write(table.as_bytes(), &folder.file("again.sxf"), &["--force"])), 0);
        assert!(fs::read(folder.file("again.sxf")).expect("a sheet") == sheet);
    }
}

/// A text may be given either way, and its characters as escapes.
#[test]
fn write_takes_characters_and_bytes() {
    let folder = Folder::new("either");
    for (from, to) in [
        ("\"title\":\"Северный берег, Ёлкино № 5\"", "\"title_bytes\":\"d1e5e2e5f0edfbe920e1e5f0e5e32c20a8ebeae8edee20b92035\""),
        ("\"date\":\"16.11.2026\"", "\"date_bytes\":\"31362e31312e32303236\""),
        ("\"designation\":\"N-37-004-А-б\"", "\"designation_bytes\":\"4e2d33372d3030342dc02de1\""),
        ("\"designation2\":\"N-37-004-А-б\"", "\"designation2_bytes\":\"4e2d33372d3030342dc02de1\""),
        ("\"label\":\"Газопровод\"", "\"label_bytes\":\"e7c1dacfd0d2cfd7cfc4\""),
        ("\"label\":\"Газопровод\"", "\"label\":\"\\u0413\\u0430\\u0437\\u043e\\u043F\\u0440\\u043e\\u0432\\u043e\\u0434\""),
        (
            "\"label\":\"Ёлкино, колодец № 5\\u0000\"",
            "\"label_bytes\":\"01043b043a0438043d043e042c0020003a043e043b043e0434043504460420001621200035000000\"",
        ),
        ("\"text\":\"МОСКВА, Ёлкино\"", "\"scale\":14,\"value\":\"8c8e918a82802c20f0abaaa8adae00\""),
        ("\"text\":\"Колодец № 5\"", "\"value\":\"caeeebeee4e5f620b9203500\",\"scale\":11"),
        ("\"text\":\"Река Москва\"", "\"scale\":11,\"value\":\"200435043a04300420001c043e0441043a04320430040000\""),
    ] {
        let lines = changed_in("cyrillic-koi8", from, to);
        let output = write(&lines, &folder.file("koi8.sxf"), &["--force"]);
        assert_eq!(status(&output), 0, "{to}: {output:?}");
        assert!(
            fs::read(folder.file("koi8.sxf")).expect("a sheet") == fs::read(sample("cyrillic-koi8")).expect("a sample"),
            "{to}"
        );
    }
}

/// It is left out, and may be there all the same.
#[test]
fn an_empty_label_is_left_out() {
    let folder = Folder::new("empty-label");
    let part = "{\"points\":[[100,190],[140,190]]";
    for label in ["}", ",\"label\":\"\"}", ",\"label_bytes\":\"\"}"] {
        let lines = changed_in("labels", &format!("{part}}}"), &format!("{part}{label}"));
        assert_eq!(status(&write(&lines, &folder.file("labels.sxf"), &["--force"])), 0, "{label}");
        assert!(fs::read(folder.file("labels.sxf")).expect("a sheet") == fs::read(sample("labels")).expect("a sample"), "{label}");
    }
}

/// Each change of a sample's table is told with status 2 and with these words.
fn each_is_told(folder: &str, name: &str, cases: &[(&str, &str, &str)]) {
    let folder = Folder::new(folder);
    cases.iter().for_each(|(from, to, words)| is_told(&folder, 2, &changed_in(name, from, to), words));
}

#[test]
fn a_text_stands_in_one_field() {
    let (label, text) = ("\"label\":\"Газопровод\"", "\"text\":\"Колодец № 5\"");
    let cases = [
        ("\"date\":", "\"date_bytes\":\"41\",\"date\":", "line 1: the head: date and date_bytes, where only one of them should be"),
        (
            "\"title\":",
            "\"title_bytes\":\"\",\"title\":",
            "line 1: the head: title and title_bytes, where only one of them should be",
        ),
        ("\"designation\":\"N-37-004-А-б\",", "", "line 1: the head: neither designation nor designation_bytes is there"),
        ("\"designation2\":\"N-37-004-А-б\",", "", "line 1: the head: neither designation2 nor designation2_bytes is there"),
        ("\"title\":\"Северный берег, Ёлкино № 5\"", "\"title\":null", "line 1: column "),
        (
            label,
            "\"label\":\"A\",\"label_bytes\":\"41\"",
            "line 2: part 0: label and label_bytes, where only one of them should be",
        ),
        (label, "\"label\":null", "line 2: column "),
        (label, "\"label\":\"\\ud800\"", "line 2: column "),
        (text, "\"text\":\"A\",\"scale\":1", "line 2: item 1: text beside scale or value, which are worked out from it"),
        (text, "\"text\":\"A\",\"value\":\"4100\"", "line 2: item 1: text beside scale or value"),
        (text, "\"text\":\"A\",\"scale\":1,\"value\":\"4100\"", "line 2: item 1: text beside scale or value"),
        (text, "\"scale\":1", "line 2: item 1: scale and value, or a text, should be there"),
        (text, "\"value\":\"4100\"", "line 2: item 1: scale and value, or a text, should be there"),
        (text, "\"text_bytes\":\"41\"", "line 2: column "),
        (
            "\"type\":126,\"text\"",
            "\"type\":2,\"text\"",
            "line 2: item 1: text, where type 2 has none; types 0, 126, 127 and 128 have",
        ),
        ("\"type\":126,\"text\"", "\"type\":382,\"text\"", "line 2: item 1: text, where type 382 has none"),
    ];
    each_is_told("one-field", "cyrillic-koi8", &cases);
}

/// Told with line, field, character and index; status 2, and no file.
#[test]
fn a_character_without_a_byte_is_told() {
    let cases = [
        (
            "\"title\":\"Северный берег",
            "\"title\":\"Север░ный берег",
            "line 1: the head: title: character '░' (unit 5) has no byte in Windows\n",
        ),
        ("\"date\":\"16", "\"date\":\"é16", "line 1: the head: date: character 'é' (unit 0) has no byte in Windows\n"),
        ("\"label\":\"Ёлкино\"", "\"label\":\"Ёл😀№\"", "line 2: part 1: label: character '😀' (unit 2) has no byte in KOI-8\n"),
        ("\"label\":\"Газопровод\"", "\"label\":\"Газ №\"", "line 2: part 0: label: character '№' (unit 4) has no byte in KOI-8\n"),
        ("\"text\":\"МОСКВА, Ёлкино\"", "\"text\":\"«»\"", "line 2: item 0: text: character '«' (unit 0) has no byte in DOS\n"),
        ("\"text\":\"Колодец № 5\"", "\"text\":\"№│\"", "line 2: item 1: text: character '│' (unit 1) has no byte in Windows\n"),
    ];
    each_is_told("no-byte", "cyrillic-koi8", &cases);
    let dos =
        [("\"label\":\"Газопровод\"", "\"label\":\"Ё©\"", "line 2: part 0: label: character '©' (unit 1) has no byte in DOS\n")];
    each_is_told("no-byte-dos", "cyrillic-dos", &dos);
}

/// Types 0, 126 and 127 hold 255 characters or units, and type 128 any number. A label's length is the library's to refuse.
#[test]
fn a_text_that_is_too_long_is_told() {
    let folder = Folder::new("too-long");
    let (long, longer) = (format!("\"text\":\"{}\"", "ы".repeat(255)), format!("\"text\":\"{}\"", "ы".repeat(256)));
    for (item, from, words) in [
        (0, "\"text\":\"МОСКВА, Ёлкино\"", "a text of 256 characters, where type 0 holds 255"),
        (1, "\"text\":\"Колодец № 5\"", "a text of 256 characters, where type 126 holds 255"),
        (2, "\"text\":\"Река Москва\"", "a text of 256 units, where type 127 holds 255"),
    ] {
        let words = format!("line 2: item {item}: text: {words}\n");
        is_told(&folder, 2, &changed_in("cyrillic-dos", from, &longer), &words);
        assert_eq!(status(&write(&changed_in("cyrillic-dos", from, &long), &folder.file("255.sxf"), &[])), 0);
        fs::remove_file(folder.file("255.sxf")).expect("the sheet");
    }
    let label = |length| changed_in("cyrillic-dos", "\"Газопровод\"", &format!("\"{}\"", "ы".repeat(length)));
    is_told(
        &folder,
        1,
        &label(256),
        "refusal 14 TABLE at 10 (0xa): the record table is not well formed here (line 2, record 0, part 0, text length)",
    );
    for lines in
        [label(255), changed_in("cyrillic-dos", "\"Ёлкино, колодец № 5 — у реки\"", &format!("\"{}\"", "ы".repeat(70_000)))]
    {
        assert_eq!(status(&write(&lines, &folder.file("long.sxf"), &["--force"])), 0);
        let again = on("table", &folder.file("long.sxf"), &[]).stdout;
        assert!(again == lines, "it is read as it was given");
    }
}

/// The lines of the DOS sheet with another byte 97.
fn labels_by(byte: u8) -> String {
    let table = out(&on("table", &sample("cyrillic-dos"), &[]));
    table.replace("\"rest\":\"0300", &format!("\"rest\":\"03{byte:02x}"))
}

/// The bytes at 97 and at the label of the first part of a sheet that these lines give.
#[test]
fn labels_are_coded_as_byte_97_and_the_unicode_bit_say() {
    let folder = Folder::new("labels-by");
    for (byte, label) in [(0, [0x83, 0xA0, 0xA7]), (1, [0xC3, 0xE0, 0xE7]), (2, [0xE7, 0xC1, 0xDA])] {
        let lines = labels_by(byte).replace("Газопровод", "Газ").replace("\"label\":\"Колодец № 5\"", "\"label\":\"Газ\"");
        let output = write(lines.as_bytes(), &folder.file("sheet.sxf"), &["--force"]);
        assert_eq!(status(&output), 0, "{output:?}");
        let sheet = fs::read(folder.file("sheet.sxf")).expect("a sheet");
        assert_eq!(sheet[passport::LABELS.place], byte);
        assert_eq!(sheet.windows(3).filter(|&bytes| bytes == label).count(), 2, "byte {byte}");
        let unicode: Vec<u8> = "Ёлкино, колодец № 5\0".encode_utf16().flat_map(u16::to_le_bytes).collect();
        assert!(sheet.windows(unicode.len()).any(|bytes| bytes == unicode), "byte {byte}");
    }
}

/// A byte 97 that is no coding is told with the head's line where it is asked for, else it is the library's to refuse.
#[test]
fn a_byte_97_that_is_no_coding_is_told() {
    let folder = Folder::new("no-coding");
    let told =
        "line 2: part 0: label: the head (line 1) has no coding for it: byte 97 of the sheet, in rest, is 3, and not 0 to 2\n";
    is_told(&folder, 2, labels_by(3).as_bytes(), told);
    let lines = labels_by(255).replace('\n', "\n\n");
    is_told(&folder, 2, format!("\n\n{lines}").as_bytes(), "line 5: part 0: label: the head (line 3) has no coding for it");
    let bytes = labels_by(3)
        .replace("\"label\":\"Газопровод\"", "\"label_bytes\":\"41\"")
        .replace("\"label\":\"Колодец № 5\"", "\"label_bytes\":\"42\"");
    is_told(&folder, 1, bytes.as_bytes(), "refusal 7 RESERVED at 97 (0x61)");
}

/// A number that is no reference does not say which coding a label is in, so the label is not judged by it.
#[test]
fn a_label_under_no_reference_is_left_to_the_library() {
    let folder = Folder::new("no-reference");
    let lines = changed_in("cyrillic-koi8", "\"reference\":524803", "\"reference\":16777216");
    let lines = String::from_utf8(lines).expect("UTF-8").replace("Газопровод", "№");
    is_told(
        &folder,
        1,
        lines.as_bytes(),
        "refusal 14 TABLE at 3 (0x3): the record table is not well formed here (line 2, record 0, reference bytes)",
    );
}

/// With --bytes no text is characters, and the sheet is written again from such lines.
#[test]
fn every_text_is_bytes_where_that_is_asked_for() {
    let folder = Folder::new("as-bytes");
    for name in ["cyrillic-dos", "cyrillic-windows", "cyrillic-koi8", "no-character", "labels", "items"] {
        let table = out(&on("table", &sample(name), &["--bytes"]));
        for field in ["date", "designation", "title", "designation2", "label", "text"] {
            assert!(!table.contains(&format!("\"{field}\":")), "{name}: {field}");
        }
        assert!(table.is_ascii() && table.contains("\"title_bytes\":"), "{name}");
        assert_eq!(status(&write(table.as_bytes(), &folder.file("again.sxf"), &["--force"])), 0);
        assert!(fs::read(folder.file("again.sxf")).expect("a sheet") == fs::read(sample(name)).expect("a sample"), "{name}");
    }
}

/// Labels that byte 97 names wrongly are put right by it alone, where texts are bytes.
#[test]
fn a_wrong_byte_97_is_put_right() {
    let folder = Folder::new("wrong-97");
    let lines = |name: &str| out(&on("table", &sample(name), &["--bytes"]));
    let (windows, dos) = (lines("cyrillic-windows"), lines("cyrillic-windows").replace("\"rest\":\"0301", "\"rest\":\"0300"));
    assert_ne!(windows, dos);
    assert_eq!(status(&write(dos.as_bytes(), &folder.file("wrong.sxf"), &[])), 0);
    let shown = out(&on("show", &folder.file("wrong.sxf"), &[]));
    assert!(shown.contains("text \"├рчюяЁютюф\" (DOS)"), "{shown}");
    let right = out(&on("table", &folder.file("wrong.sxf"), &["--bytes"])).replace("\"rest\":\"0300", "\"rest\":\"0301");
    assert_eq!(status(&write(right.as_bytes(), &folder.file("right.sxf"), &[])), 0);
    assert!(fs::read(folder.file("right.sxf")).expect("a sheet") == fs::read(sample("cyrillic-windows")).expect("a sample"));
}

/// What acts on a line stands in a text of UTF-16 alone: it is an escape in what is printed, and comes back.
#[test]
fn no_text_acts_on_a_line_that_is_printed() {
    let folder = Folder::new("acting");
    let acting = "\u{9B}31m\u{7F}\u{85}\u{2028}\u{202E}\u{FEFF}Газ";
    let table = out(&on("table", &sample("items"), &[]));
    let line = table.lines().nth(1).expect("a record");
    let item = format!("\"items\":[{{\"code\":1,\"type\":127,\"text\":\"{acting}\"}},");
    let lines = table.replacen("\"items\":[", &item, 1);
    assert!(line.contains("\"items\":[{"), "{line}");
    assert_eq!(status(&write(lines.as_bytes(), &folder.file("acting.sxf"), &[])), 0);
    let (shown, printed) = (out(&on("show", &folder.file("acting.sxf"), &[])), out(&on("table", &folder.file("acting.sxf"), &[])));
    assert!(shown.contains(r#""\u{9b}31m\u{7f}\u{85}\u{2028}\u{202e}\u{feff}Газ" (UTF-16)"#), "{shown}");
    assert!(printed.contains(r#""text":"\u009b31m\u007f\u0085\u2028\u202e\ufeffГаз""#), "{printed}");
    assert_eq!(status(&write(printed.as_bytes(), &folder.file("again.sxf"), &[])), 0);
    assert!(fs::read(folder.file("again.sxf")).expect("a sheet") == fs::read(folder.file("acting.sxf")).expect("a sheet"));
}

/// Lines that an editor saved in the Windows coding.
#[test]
fn lines_that_are_not_utf8_are_told() {
    let folder = Folder::new("not-utf8");
    let table = out(&on("table", &sample("cyrillic-windows"), &[]));
    let place = table.find("Газопровод").expect("a label");
    let saved = [&table.as_bytes()[..place], b"\xC3\xE0\xE7", &table.as_bytes()[place..]].concat();
    let column = place - table[..place].rfind('\n').expect("a line before");
    is_told(&folder, 2, &saved, &format!("line 2: column {column}: byte 0xc3 is not UTF-8; save the lines as UTF-8"));
}

#[test]
fn help_says_how_texts_stand() {
    let help = |word: &str| out(&sxf(&[word, "--help"]).output().expect("sxf runs"));
    assert!(help("show")
        .contains(r"A byte that has no character is shown as \x98, and so is what would end or steer the line: \n, \u{1b}."));
    assert!(help("table").contains("Print every text as bytes"));
    assert!(help("write").contains("or as bytes (title_bytes, label_bytes, an item's scale and value)"));
}
