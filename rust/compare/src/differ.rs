//! Legal sheets, one difference each, on which GDAL's reading is another than the archive's.

use crate::child::{self, ask_gdal, End};
use crate::scratch::Scratch;
use crate::sheets::{self, Record, Sheet};
use crate::texts::{coded, labels, shown};
use crate::values::{value, Value};
use crate::SETTING;
use sxf::{Coding, ElementKind, Reference, Text};

#[derive(Clone, Copy)]
enum Look {
    Points,
    Texts,
    Values,
}

struct Case {
    name: &'static str,
    look: Look,
    sheet: Sheet,
    /// What the documents say.
    says: &'static str,
}

fn case(name: &'static str, look: Look, sheet: Sheet, says: &'static str) -> Case {
    Case { name, look, sheet, says }
}

fn at(x: f64, y: f64) -> [f64; 3] {
    [x, y, 0.0]
}

fn one(record: Record) -> Sheet {
    Sheet::real(vec![record])
}

fn point() -> Record {
    Record::new(2, &[at(1.5, 2.5)])
}

fn line() -> Record {
    Record::new(0, &[at(1.0, 2.0), at(3.0, 4.0)])
}

fn label(text: &[u8]) -> Record {
    Record::new(3, &[at(1.0, 2.0), at(3.0, 4.0)]).texts(&[text])
}

fn closed(text: &[u8], zeros: usize) -> Vec<u8> {
    [text, &[0, 0][..zeros]].concat()
}

fn item_of(length: usize, kind: u8) -> Sheet {
    one(point().item(9, kind, length as u8 as i8, &closed(&vec![b'a'; length], 1)).item(10, 2, 0, &[7, 0]))
}

fn where_the_points_are() -> Vec<Case> {
    let two = |x: f64, y: f64| Record::new(2, &[at(x, y)]).element(ElementKind::Long, false);
    let device = |record: Record| Sheet::device(vec![record]);
    let ring = |from: f64, size: f64| [at(from, from), at(from, from + size), at(from + size, from + size), at(from, from)];
    let long = vec![at(1.0, 2.0); 70_000];
    vec![
        case(
            "resolution 0 at +312 in a sheet of real coordinates",
            Look::Points,
            Sheet { resolution: 0, ..one(point()) },
            "000, table 1: for real coordinates it may be 0",
        ),
        case(
            "device points, with a frame at +316",
            Look::Points,
            device(two(2000.0, 1000.0)),
            "000, appendix 5, formula (1), gives GDAL's metres; 01: device points are never taken for metres",
        ),
        case(
            "device points, no frame at +316",
            Look::Points,
            Sheet { frame: [0; 8], ..device(two(2000.0, 1000.0)) },
            "000, appendix 5: metres only by formula (1). GDAL hands out device points with a reference system in metres",
        ),
        case(
            "real by +98 (accuracy 1), bits 3-4 of +96 zero, with a frame",
            Look::Points,
            Sheet { accuracy: 1, ..device(two(2000.0, 1000.0)) },
            "000, table 1, note 2: real whatever the bits of +96 say",
        ),
        case(
            "real by a negative resolution, bits 3-4 of +96 zero, with a frame",
            Look::Points,
            Sheet { resolution: -20_000, ..device(two(2000.0, 1000.0)) },
            "000, table 1, note 2: real. GDAL takes the resolution as unsigned",
        ),
        case(
            "2-byte elements from 32768 up",
            Look::Points,
            one(Record::new(2, &[at(40_000.0, 65_535.0)]).element(ElementKind::Short, false)),
            "000, 2.1.4: 0 to 65535",
        ),
        case(
            "a subobject of more than 65535 points",
            Look::Points,
            one(Record::new(0, &long).part(&long)),
            "000, 2.1.4: N2 + 65536 * N1",
        ),
        case(
            "a lake of four points under the mark, with an island of four",
            Look::Points,
            one(Record::new(1, &ring(0.0, 9.0)).part(&ring(2.0, 1.0)).mark()),
            "02, request 2: under the mark any count in the word is good. Read alike",
        ),
        case(
            "a lake of four points, with an island of 70000",
            Look::Points,
            one(Record::new(1, &ring(0.0, 9.0)).part(&long)),
            "02, request 2: such a record must carry the mark; 000, 2.1.4: N2 + 65536 * N1",
        ),
        case(
            "a vector: two points",
            Look::Points,
            one(Record::new(4, &[at(1.0, 2.0), at(3.0, 4.0)])),
            "000, note 1 to table 3: two points",
        ),
        case(
            "a vector of three points",
            Look::Points,
            one(Record::new(4, &[at(1.0, 2.0), at(3.0, 4.0), at(5.0, 6.0)])),
            "01 sets no count",
        ),
        case("a point record of two points", Look::Points, one(Record::new(2, &[at(1.0, 2.0), at(3.0, 4.0)])), "01 sets no count"),
        case("a line of no points", Look::Points, one(Record::new(0, &[])), "01: any count"),
        case(
            "a label template",
            Look::Points,
            one(Record::new(5, &[at(1.0, 2.0)]).part(&[at(3.0, 4.0), at(5.0, 6.0)])),
            "000, note 1 to table 3",
        ),
        case(
            "a multipolygon: the subobject lies outside",
            Look::Points,
            one(Record::new(1, &ring(0.0, 9.0)).part(&ring(100.0, 1.0)).more(Reference::MULTIPOLYGON)),
            "000, table 3: it may lie outside. GDAL has it as a hole",
        ),
        case(
            "a polygon with two holes",
            Look::Points,
            one(Record::new(1, &ring(0.0, 90.0)).part(&ring(2.0, 1.0)).part(&ring(5.0, 1.0))),
            "000, 2.1.4: read alike, but GDAL warns of its length",
        ),
        case("two dimensions", Look::Points, one(line()), "000: no height"),
        case(
            "a template and then a point in one layer",
            Look::Points,
            Sheet::real(vec![Record::new(5, &[at(1.0, 2.0)]), point()]),
            "000, note 1 to table 3",
        ),
    ]
}

fn what_labels_say() -> Vec<Case> {
    let moscow = |coding: u8| Sheet { coding, ..one(label(&coded(labels(coding), "Москва"))) };
    let unicode = label(&closed(&coded(Coding::Utf16, "Москва"), 2)).more(Reference::UNICODE);
    let lines = Record::new(3, &[at(1.0, 2.0)]).part(&[at(3.0, 4.0)]).texts(&[b"one", b"two"]);
    vec![
        case(
            "a label in the DOS coding, +97 = 0",
            Look::Texts,
            moscow(0),
            "000, table 1, note 5. GDAL reads it in the Windows coding",
        ),
        case("a label in KOI-8, +97 = 2", Look::Texts, moscow(2), "000, table 1, note 5. GDAL reads it in the Windows coding"),
        case("a label in UTF-16", Look::Texts, one(unicode), "000, 2.1.4, and bit 4 of byte 21"),
        case(
            "a label in UTF-16 of Latin letters",
            Look::Texts,
            one(label(&closed(&coded(Coding::Utf16, "Gas 40"), 2)).more(Reference::UNICODE)),
            "the same",
        ),
        case("a label of two lines", Look::Texts, one(lines), "000, 2.1.4: each line has its own text"),
        case(
            "a label with an alignment byte after a zero",
            Look::Texts,
            one(label(b"abc\0\x16")),
            "000, appendix 6. The library hands out all five bytes, GDAL the first three",
        ),
    ]
}

fn what_items_say() -> Vec<Case> {
    let moscow = coded(Coding::Utf16, "Москва");
    let double = 3.5f64.to_le_bytes();
    vec![
        case(
            "type 1, byte FB",
            Look::Values,
            one(point().item(9, 1, 0, &[0xFB])),
            "01: a signed integer; 000 does not say. GDAL takes types 2 and 4 as signed",
        ),
        case(
            "type 8 with scale 2",
            Look::Values,
            one(point().item(9, 8, 2, &double)),
            "000, note 2 to table 9: the scale is for integers",
        ),
        case(
            "type 127",
            Look::Values,
            one(point().item(9, 127, 6, &closed(&moscow, 2)).item(10, 2, 0, &[7, 0])),
            "000, note 1 to table 9",
        ),
        case(
            "type 127, Latin letters",
            Look::Values,
            one(point().item(9, 127, 6, &closed(&coded(Coding::Utf16, "Gas 40"), 2)).item(10, 2, 0, &[7, 0])),
            "000, note 1 to table 9",
        ),
        case(
            "type 128, then another item",
            Look::Values,
            one(point().item(9, 128, -1, &closed(&moscow, 2)).item(10, 2, 0, &[7, 0])),
            "000, table 10",
        ),
        case(
            "a code twice in one record",
            Look::Values,
            one(point().item(9, 2, 0, &[7, 0]).item(9, 2, 0, &[8, 0])),
            "000 has no rule against it",
        ),
        case(
            "a code as number in one record and as text in the next",
            Look::Values,
            Sheet::real(vec![point().item(9, 2, 0, &[7, 0]), point().item(9, 126, 3, b"abc\0")]),
            "000, table 9: each item has its type",
        ),
        case(
            "text of 127 letters, then another item",
            Look::Values,
            item_of(127, 126),
            "000, note 2 to table 9: up to 255 letters",
        ),
        case("text of 128 letters, then another item", Look::Values, item_of(128, 126), "the same"),
        case("text of 251 letters, type 0", Look::Values, item_of(251, 0), "the same"),
        case("text of 255 letters", Look::Values, item_of(255, 126), "the same"),
    ]
}

fn unit(sheet: &[u8]) -> sxf::Unit {
    sxf::Sheet::read(sheet, SETTING).expect("the reader takes the sheet").unit()
}

fn ours(look: Look, sheet: &Sheet, bytes: &[u8]) -> String {
    let records = sheets::read(bytes);
    let points = |record: &Record| {
        let flat = |p: &[f64; 3]| if record.heights { format!("{} {} {}", p[0], p[1], p[2]) } else { format!("{} {}", p[0], p[1]) };
        let part = |points: &Vec<[f64; 3]>| match points.len() {
            0 => "no point".to_string(),
            1..=4 => points.iter().map(flat).collect::<Vec<_>>().join(", "),
            count => format!("{count} points"),
        };
        record.parts.iter().map(|p| part(&p.points)).collect::<Vec<_>>().join(" / ")
    };
    let text = |record: &Record| {
        let wide = record.more & Reference::UNICODE != 0;
        let coding = if wide { Coding::Utf16 } else { labels(sheet.coding) };
        let line = |bytes: &[u8]| child::quoted(&shown(Text { coding, bytes }));
        record.parts.iter().map(|p| line(&p.text)).collect::<Vec<_>>().join(" / ")
    };
    let items = |record: &Record| {
        let shown = |v: Value| match v {
            Value::Number(number) => number.to_string(),
            Value::Text(text) => child::quoted(&text),
        };
        record.items.iter().map(|i| format!("{} {}", i.code, shown(value(i)))).collect::<Vec<_>>().join(", ")
    };
    match look {
        Look::Points => format!("{}: {}", unit(bytes), records.iter().map(points).collect::<Vec<_>>().join("; ")),
        Look::Texts => records.iter().map(text).collect::<Vec<_>>().join("; "),
        Look::Values => records.iter().map(items).collect::<Vec<_>>().join("; "),
    }
}

fn theirs(look: Look, path: &str) -> String {
    let seen = match ask_gdal(path) {
        End::Died(signal) => return format!("DIES, signal {signal}"),
        End::Hung => return "HANGS".to_string(),
        End::Answered(seen) => seen,
    };
    let told = match look {
        _ if !seen.opened => "does not open it".to_string(),
        _ if seen.features == 0 => "no feature".to_string(),
        Look::Points if seen.texts.is_empty() => seen.points,
        Look::Points => format!("{}, {}", seen.points, seen.texts),
        Look::Texts => seen.texts,
        Look::Values => seen.values,
    };
    let told = if told.is_empty() { "a feature without it".to_string() } else { told };
    match (seen.warnings, seen.errors) {
        (0, 0) => told,
        (_, 0) => format!("{told}; a warning"),
        _ => format!("{told}; an error"),
    }
}

pub fn run() {
    let scratch = Scratch::new();
    let path = scratch.path("different.sxf");
    println!("| the sheet has | this library reads | GDAL reads | the documents |");
    println!("|---|---|---|---|");
    for Case { name, look, sheet, says } in where_the_points_are().into_iter().chain(what_labels_say()).chain(what_items_say()) {
        let bytes = sheet.write();
        std::fs::write(&path, &bytes).expect("room for the sheet's file");
        println!("| {name} | {} | {} | {says} |", ours(look, &sheet, &bytes), theirs(look, &path));
    }
}
