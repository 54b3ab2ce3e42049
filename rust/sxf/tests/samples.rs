//! The wrapper over the sample sheets, and over what is left of them when a byte or a number is changed.
mod common;

use common::{cleared, put_sum_right, read, sample, ACCEPTED, DIRTY};
use sxf::fields::{passport, Field};
use sxf::{
    check, record_at, row, write, Coding, Head, HeightUnit, Localisation, NewItem, NewPart, NewRecord, NoCharacter, Number, Point,
    Record, Reference, Refusal, Setting, Sheet, Stray, Table, TableRef, Text, Unit, Value, Writer,
};

/// With the number and place that samples/sheets.txt states.
const REFUSED: [(&str, u32, usize); 8] = [
    ("sum-wrong", Refusal::SUM, 12),
    ("too-short", Refusal::SHORT, 0),
    ("not-sxf", Refusal::NOT_SXF, 0),
    ("no-zero", Refusal::TEXT, 64),
    ("closing", Refusal::TEXT, 493),
    ("graphics", Refusal::NOT_CARRIED, 474),
    ("left-over", Refusal::LEFT_OVER, 488),
    ("n1-not-zero", Refusal::COUNT, 488),
];

#[test]
fn each_sample_is_accepted_or_refused() {
    for name in ACCEPTED {
        let bytes = sample(name);
        let sheet = read(&bytes);
        assert_eq!(sheet.records().count(), sheet.record_count(), "{name}");
        assert_eq!(sheet.sizes(), check(&bytes, Setting::Y2017).expect(name));
    }
    for (name, number, place) in REFUSED {
        let refusal = Sheet::read(&sample(name), Setting::Y2017).expect_err(name);
        assert_eq!((refusal.number, refusal.place, refusal.year), (number, place, 0), "{name}");
    }
}

/// The walk over the unfolded table says of each record what the library says of it when asked.
#[test]
fn records_are_as_the_library_answers_them() {
    for name in ACCEPTED {
        let bytes = sample(name);
        let sheet = read(&bytes);
        for record in sheet.records() {
            let asked = record_at(&bytes, Setting::Y2017, record.number() as u64).expect(name);
            assert_eq!((record.place(), record.total()), (asked.place, asked.total));
            assert_eq!((record.code(), record.in_group(), record.group()), (asked.code, asked.in_group, asked.group));
            assert_eq!((record.reference(), record.generalisation()), (asked.reference, asked.generalisation));
            assert_eq!((record.word(), record.mark()), (asked.word, asked.mark));
            assert_eq!((record.parts().count(), record.items().count()), (asked.parts as usize, asked.items));
            assert_eq!(record.first_points(), u64::from(asked.points));
        }
        assert_eq!(sheet.record(sheet.record_count()).expect_err(name).name(), "ASK");
        assert_eq!(record_at(&bytes, Setting::Y2017, u64::MAX).expect_err(name).name(), "ASK");
    }
}

/// Byte for byte, but for old letters in the tails of two of them.
#[test]
fn samples_are_written_back_from_their_tables() {
    for name in ACCEPTED {
        let bytes = sample(name);
        let sheet = read(&bytes);
        assert_eq!(sheet.table().sheet_length(), Some(bytes.len()), "{name}");
        let again = write(&sheet.head().expect(name), sheet.table(), Setting::Y2017).expect(name);
        assert_eq!((again == cleared(&bytes), again == bytes), (true, !DIRTY.contains(&name)), "{name}");
    }
}

/// The sheet written from its head and from each of its records, which go from what is read to what is written.
fn written_from_records(sheet: &Sheet<'_>) -> Vec<u8> {
    let mut writer = Writer::new(sheet.head().expect("a head")).expect("a head that was read");
    for record in sheet.records().map(NewRecord::from) {
        writer.push(&record).expect("a record that was read");
    }
    writer.write(Setting::Y2017).expect("a sheet that was read")
}

#[test]
fn samples_are_written_back_from_typed_records() {
    for name in ACCEPTED {
        let bytes = sample(name);
        assert!(written_from_records(&read(&bytes)) == cleared(&bytes), "{name}");
    }
}

/// Elements of every kind, NaNs of both signs among them, go from what is read to what is written bit for bit.
#[test]
fn records_that_were_read_keep_every_bit() {
    let (short, long) = ([0, 1, 0x8000, 0xFFFF], [0, 0x7FFF_FFFF, 0x8000_0000, 0xFFFF_FFFF]);
    let single = [0x8000_0000, 0x7F80_0000, 0x7F80_0001, 0xFFC0_BEEF];
    let double = [1 << 63, 0x7FF0_0000_0000_0000, 0x7FF0_0000_0000_0001, 0xFFF8_0000_DEAD_BEEF];
    let mut table = Table::default();
    for (bits, planar, height) in [
        (0, short, single),
        (Reference::ELEMENT_SIZE, long, single),
        (Reference::FLOATING, single, single),
        (Reference::FLOATING | Reference::ELEMENT_SIZE, double, double),
    ] {
        for more in [0, Reference::THREE_DIMENSIONS] {
            let reference = Reference::new(Localisation::Linear).with(bits | more);
            let record = row::Record {
                code: 9,
                in_group: 8,
                group: 7,
                reference: reference.0.into(),
                word: 6,
                parts: 1,
                ..Default::default()
            };
            table.numbers.extend(record.numbers());
            table.numbers.extend(row::Part { points: 4, text_length: 0 }.numbers());
            for (x, h) in planar.into_iter().zip(height) {
                table.elements.extend(if more == 0 { vec![x, planar[3]] } else { vec![x, planar[3], h] });
            }
        }
    }
    let bytes = write(&Head::PLAIN, table.lend(), Setting::Y2017).expect("a sheet");
    assert_eq!(read(&bytes).table(), table.lend());
    assert!(written_from_records(&read(&bytes)) == bytes);
}

#[test]
fn the_head_is_told() {
    let bytes = sample("head");
    let sheet = read(&bytes);
    let head = sheet.head().expect("a head");
    assert_eq!((head.date, head.scale, head.designation2), (&b"20170101"[..], 10_000, &b"N-37-004"[..]));
    assert_eq!((head.designation, head.title), (&b"N-37-004-A-b-3, the river sheet"[..], &b"North bank, upper terrace, 1:10"[..]));
    assert_eq!((sheet.unit(), head.label_coding()), (Unit::Degrees, Some(Coding::Windows)));
    assert_eq!(sheet.corners().expect("corners").nan_at, None);
}

#[test]
fn a_nan_corner_stays_its_bits() {
    let mut rest = *Head::PLAIN.rest;
    let first = passport::in_rest(passport::CORNERS).place;
    let corner = |number: usize| Field::new(first + 8 * number, 8).range();
    rest[corner(0)].copy_from_slice(&1.5f64.to_le_bytes());
    rest[corner(1)].copy_from_slice(&0x7FF0_0000_0000_0001u64.to_le_bytes());
    let bytes = write(&Head { rest: &rest, ..Head::PLAIN }, TableRef::default(), Setting::Y2017).expect("a sheet");
    let corners = read(&bytes).corners().expect("corners");
    assert_eq!(
        (corners.nan_at, corners.sw_x, corners.sw_y),
        (Some(passport::CORNERS.place + 8), Number::Double(1.5), Number::NotNumber(0x7FF0_0000_0000_0001))
    );
}

#[test]
fn points_heights_and_texts_are_told() {
    let bytes = sample("heights");
    let sheet = read(&bytes);
    let told: Vec<Vec<String>> = sheet
        .records()
        .map(|record| {
            record
                .parts()
                .flat_map(|part| part.points())
                .map(|p| format!("{} {} {}", p.x.number(), p.y.number(), p.height.map_or("-".into(), |h| h.number().to_string())))
                .collect()
        })
        .collect();
    assert_eq!(told, [vec!["1 2 1.0", "3 4 2.0"], vec!["1 2 1.0"], vec!["1.0 2.0 3.0"], vec!["1.0 2.0 3.0"]]);

    let bytes = sample("labels");
    let sheet = read(&bytes);
    let texts: Vec<_> = sheet.records().flat_map(|r| r.parts().map(|part| part.text()).collect::<Vec<_>>()).collect();
    let dos = |bytes| Some(Text { coding: Coding::Dos, bytes });
    assert_eq!(texts, [dos(b"Gas main"), dos(b""), dos(b"x")]);
}

#[test]
fn values_of_items_are_told() {
    let bytes = sample("items");
    let sheet = read(&bytes);
    let record = sheet.record(0).expect("a record");
    let values: Vec<_> = record.items().map(|item| item.value()).collect();
    let text = |coding, bytes| Value::Text(Text { coding, bytes });
    let expected = [
        text(Coding::Dos, b"ABC"),
        text(Coding::Windows, b""),
        text(Coding::Utf16, b"A\0"),
        Value::Decimal { whole: -1, power: 0 },
        Value::Decimal { whole: 1273, power: -1 },
        Value::Decimal { whole: 0x0403_0201, power: 2 },
        Value::Double(Number::Double(1.0)),
        text(Coding::Utf16, b"A\0"),
    ];
    assert_eq!(values, expected);
}

/// The three sheets of Cyrillic: the byte at 97, the coding that it stands for, and the label of the second part.
const CYRILLIC: [(&str, u8, Coding, &str); 3] = [
    ("cyrillic-dos", 0, Coding::Dos, "Колодец № 5"),
    ("cyrillic-windows", 1, Coding::Windows, "Колодец № 5\0"),
    ("cyrillic-koi8", 2, Coding::Koi8, "Ёлкино"),
];

const TITLE: &str = "Северный берег, Ёлкино № 5";
const DESIGNATION: &str = "N-37-004-А-б";
/// The label of the record that has the Unicode bit.
const UNICODE_LABEL: &str = "Ёлкино, колодец № 5\0";
const ITEMS: [(u16, u8, Coding, &str); 4] = [
    (8, 0, Coding::Dos, "МОСКВА, Ёлкино"),
    (9, 126, Coding::Windows, "Колодец № 5"),
    (10, 127, Coding::Utf16, "Река Москва"),
    (11, 128, Coding::Utf16, "Ёлкино, колодец № 5 — у реки"),
];

/// The labels of a record, and the texts of its items, each with its coding.
fn labels<'a>(record: &Record<'a>) -> Vec<Text<'a>> {
    record.parts().filter_map(|part| part.text()).collect()
}

fn item_texts<'a>(record: &Record<'a>) -> Vec<Text<'a>> {
    let text = |value| if let Value::Text(text) = value { Some(text) } else { None };
    record.items().filter_map(|item| text(item.value())).collect()
}

/// The samples' bytes are made by Python's codecs.
#[test]
fn texts_are_turned_into_strings() {
    let told = |text: Text<'_>| (text.coding, text.string().expect("characters"));
    for (name, _, coding, second) in CYRILLIC {
        let bytes = sample(name);
        let sheet = read(&bytes);
        let head = sheet.head().expect(name);
        assert_eq!(head.label_coding(), Some(coding));
        let texts = [head.date, head.designation, head.title, head.designation2].map(|text| Head::CODING.string(text).expect(name));
        assert_eq!(texts, ["16.11.2026", DESIGNATION, TITLE, DESIGNATION]);
        let records: Vec<_> = sheet.records().collect();
        let found: Vec<_> = records.iter().flat_map(labels).map(told).collect();
        let stated = [(coding, "Газопровод"), (coding, second), (Coding::Utf16, UNICODE_LABEL)];
        assert_eq!(found, stated.map(|(coding, text)| (coding, text.to_string())), "{name}");
        let found: Vec<_> = records.iter().flat_map(item_texts).map(told).collect();
        assert_eq!(found, ITEMS.map(|(.., coding, text)| (coding, text.to_string())), "{name}");
    }
}

/// The same sheets from strings: the codings' bytes are those of Python's codecs.
#[test]
fn strings_are_turned_into_texts() {
    let at = |n| Unit::DevicePoints.coordinate(Number::Whole(n));
    let point = |x, y| Point { x: at(x), y: at(y), height: None };
    for (name, byte, coding, second) in CYRILLIC {
        let text = |text| Head::CODING.bytes(text).expect(name);
        let (date, designation, title) = (text("16.11.2026"), text(DESIGNATION), text(TITLE));
        let mut rest = *Head::PLAIN.rest;
        rest[passport::in_rest(passport::LABELS).place] = byte;
        let head = Head {
            date: &date,
            designation: &designation,
            scale: 10_000,
            title: &title,
            rest: &rest,
            designation2: &designation,
            carried: &[3, byte, 0, 0],
        };
        let coding_of = |reference: Reference| reference.label_coding().or(head.label_coding()).expect("a coding");
        let plain = Reference::new(Localisation::Label).with(Reference::TEXT_IN_METRIC);
        let unicode = plain.with(Reference::UNICODE);
        assert_eq!((coding_of(plain), coding_of(unicode)), (coding, Coding::Utf16));
        let part = |points, reference, text| NewPart::new(points).string(coding_of(reference), text).expect(text);
        let first = NewRecord { in_group: 1, group: 1, ..NewRecord::new(91_000_000, plain) }
            .part(part(vec![point(100, 200)], plain, "Газопровод"))
            .part(part(vec![point(100, 190), point(140, 190)], plain, second));
        let with_item = |record: NewRecord, (code, kind, _, text): (u16, u8, Coding, &str)| {
            record.item(NewItem::string(code, kind, text).expect(text))
        };
        let mut writer = Writer::new(head).expect(name);
        writer.push(&ITEMS.into_iter().fold(first, with_item)).expect(name);
        let second = NewRecord::new(91_000_001, unicode).part(part(vec![point(100, 180)], unicode, UNICODE_LABEL));
        writer.push(&second).expect(name);
        assert!(writer.write(Setting::Y2012).as_ref() == Ok(&sample(name)), "{name}");
    }
}

#[test]
fn what_has_no_character_is_named_with_its_index() {
    let bytes = sample("no-character");
    let sheet = read(&bytes);
    let head = sheet.head().expect("a head");
    let none = |coding, index, what| Err(NoCharacter { coding, index, what });
    let byte = Stray::Byte(0x98);
    assert_eq!(Head::CODING.string(head.title), none(Coding::Windows, 9, byte));
    let records: Vec<_> = sheet.records().collect();
    let turned = |texts: &[Text<'_>]| texts.iter().map(|text| text.string()).collect::<Vec<_>>();
    assert_eq!(turned(&labels(&records[0])), [none(Coding::Windows, 3, byte), Ok("Газопровод".to_string())]);
    assert_eq!(turned(&labels(&records[1])), [none(Coding::Utf16, 0, Stray::Unit(0xD800)), none(Coding::Utf16, 3, byte)]);
    let items = [
        Ok("ГазШ".to_string()),
        none(Coding::Windows, 4, byte),
        none(Coding::Utf16, 3, Stray::Unit(0xD800)),
        none(Coding::Utf16, 0, Stray::Unit(0xDC00)),
    ];
    assert_eq!(turned(&item_texts(&records[0])), items);
}

/// A record with everything: three dimensions, two parts with texts, two items; and a record after it.
#[test]
fn texts_values_and_heights_stand_apart() {
    let plane = |n| Unit::DevicePoints.coordinate(Number::Whole(n));
    let point = |n: i64| Point { x: plane(n), y: plane(n + 1), height: Some(HeightUnit::Metres.height(Number::Single(0.5))) };
    let reference = Reference::new(Localisation::Label).with(Reference::TEXT_IN_METRIC | Reference::THREE_DIMENSIONS);
    let record = NewRecord::new(7, reference)
        .part(NewPart::new(vec![point(1), point(3)]).text("first"))
        .part(NewPart::new(vec![point(5)]).text("second"))
        .item(NewItem::text(1, Coding::Windows, b"third").expect("a text"))
        .item(NewItem::double(2, -0.0));
    let mut writer = Writer::new(Head::PLAIN).expect("a plain head");
    for _ in 0..2 {
        writer.push(&record).expect("a record that fits");
    }
    let bytes = writer.write(Setting::Y1999).expect("a sheet");
    let again: Vec<NewRecord> = read(&bytes).records().map(NewRecord::from).collect();
    assert_eq!(again, [record.clone(), record]);
}

/// The coordinates of the sheet's unit, as the passport's flags and the byte at +236 say.
#[test]
fn coordinates_are_in_the_sheets_unit() {
    let units = [
        (3, 0, Unit::DevicePoints),
        (0x1B, 0, Unit::Metres),
        (0x1B, 64, Unit::Radians),
        (0x1B, 65, Unit::Degrees),
        (0x1B, 9, Unit::Unknown(9)),
    ];
    for (flags, byte, unit) in units {
        let mut rest = *Head::PLAIN.rest;
        rest[passport::in_rest(passport::FLAGS).place] = flags;
        rest[passport::in_rest(passport::UNIT).place] = byte;
        let mut writer = Writer::new(Head { rest: &rest, ..Head::PLAIN }).expect("a head");
        assert_eq!(writer.unit(), unit);
        let three = unit.coordinate(Number::Whole(3));
        let part = NewPart::new(vec![Point { x: three, y: three, height: None }]);
        writer.push(&NewRecord::new(0, Reference::new(Localisation::Point)).part(part.clone())).expect("a point that fits");
        let bytes = writer.write(Setting::Y1999).expect("a sheet");
        let sheet = read(&bytes);
        assert_eq!(NewRecord::from(sheet.record(0).expect("a record")).parts, [part]);
        assert_eq!(sheet.unit(), unit);
    }
}

/// A sheet of one record with these bytes at +96, +236 and +237, in three dimensions, of these elements.
fn sheet_in_space(flags: u8, unit: u8, height_unit: u8, bits: u32, elements: [u64; 3]) -> Vec<u8> {
    let mut rest = *Head::PLAIN.rest;
    for (field, byte) in [(passport::FLAGS, flags), (passport::UNIT, unit), (passport::HEIGHT_UNIT, height_unit)] {
        rest[passport::in_rest(field).place] = byte;
    }
    let reference = Reference::new(Localisation::Point).with(bits | Reference::THREE_DIMENSIONS);
    let record = row::Record { reference: reference.0.into(), parts: 1, ..row::Record::default() };
    let numbers = [&record.numbers()[..], &row::Part { points: 1, text_length: 0 }.numbers()].concat();
    let table = TableRef { numbers: &numbers, elements: &elements, bytes: &[] };
    write(&Head { rest: &rest, ..Head::PLAIN }, table, Setting::Y2017).expect("a sheet")
}

/// A height is in metres or of unknown unit by its own byte, whatever the plane is in; and the plane does not see that byte.
#[test]
fn heights_are_in_a_unit_of_their_own() {
    let planes = [(3, 64, Unit::DevicePoints), (0x1B, 0, Unit::Metres), (0x1B, 64, Unit::Radians), (0x1B, 7, Unit::Unknown(7))];
    for (flags, byte, plane) in planes {
        for (height_byte, unit) in [(0, HeightUnit::Metres), (64, HeightUnit::Unknown(64)), (255, HeightUnit::Unknown(255))] {
            let bytes = sheet_in_space(flags, byte, height_byte, 0, [65535, 0, 0x42FF_0000]);
            let sheet = read(&bytes);
            assert_eq!((sheet.unit(), sheet.height_unit()), (plane, unit));
            let point = sheet.record(0).expect("a record").parts().next().and_then(|part| part.points().next());
            let [x, y] = [65535, 0].map(|n| plane.coordinate(Number::Whole(n)));
            assert_eq!(point, Some(Point { x, y, height: Some(unit.height(Number::Single(127.5))) }));
            assert!(written_from_records(&sheet) == bytes);
        }
    }
}

/// The numbers of elements that a double or a single could lose: each is exact, and a NaN is its bits.
#[test]
fn elements_stand_for_exact_numbers() {
    let large = Reference::ELEMENT_SIZE;
    let double = large | Reference::FLOATING;
    let (least, nan) = (f32::from_bits(1), 0x7FF0_0000_0000_0001);
    for (bits, elements, numbers) in [
        (0, [65535, 32768, 1], [Number::Whole(65535), Number::Whole(32768), Number::Single(least)]),
        (large, [1 << 31, 0xFFFF_FFFF, 0x7F80_0001], [Number::Whole(-1 << 31), Number::Whole(-1), Number::NotNumber(0x7F80_0001)]),
        (double, [1, nan, 1 << 63], [Number::Double(f64::from_bits(1)), Number::NotNumber(nan), Number::Double(-0.0)]),
    ] {
        let bytes = sheet_in_space(0x1B, 0, 0, bits, elements);
        let sheet = read(&bytes);
        let point = sheet.record(0).expect("a record").parts().next().and_then(|part| part.points().next()).expect("a point");
        assert_eq!([point.x.number(), point.y.number(), point.height.expect("a height").number()], numbers);
        assert!(written_from_records(&sheet) == bytes);
    }
}

#[test]
fn years_are_met_one_after_another() {
    let bytes = sample("dated");
    let years = sxf::years::of(&bytes);
    let told: Vec<_> = years.features.iter().map(|f| (f.setting.year(), f.place, f.year, f.name(&bytes))).collect();
    assert_eq!(told, [(1999, 98, 2006, "accuracy not 0"), (2006, 100, 2017, "EPSG not 0")]);
    assert_eq!(years.outcome.map(|(setting, _)| setting), Ok(Setting::Y2017));
}

#[test]
fn the_limit_is_the_librarys() {
    let refusal = check(&vec![0; sxf::LIMIT + 1], Setting::Y2017).expect_err("over the limit");
    assert_eq!((refusal.name(), refusal.place), ("TOO LONG", 0));
    assert_eq!(check(&vec![0; sxf::LIMIT], Setting::Y2017).expect_err("no sheet").name(), "NOT SXF");
}

/// A count under the mark, and a table over the limit.
#[test]
fn many_points_are_written_with_the_mark() {
    let table = |points: u64| {
        let reference = (Reference::FLOATING | Reference::ELEMENT_SIZE).into();
        let record = row::Record { code: 7, reference, generalisation: 255, word: points, parts: 1, mark: 1, ..Default::default() };
        let numbers = [&record.numbers()[..], &row::Part { points, text_length: 0 }.numbers()].concat();
        Table { numbers, elements: vec![1; 2 * points as usize], bytes: Vec::new() }
    };
    let marked = table(70_000);
    let bytes = write(&Head::PLAIN, marked.lend(), Setting::Y2004).expect("a sheet");
    assert_eq!(read(&bytes).table(), marked.lend());
    assert_eq!(write(&Head::PLAIN, marked.lend(), Setting::Y1999).expect_err("the mark").name(), "TOO NEW");
    assert_eq!(write(&Head::PLAIN, table(4_200_000).lend(), Setting::Y2017).expect_err("67.2 MB").name(), "TOO LONG");
}

fn walk(sheet: &Sheet<'_>) -> usize {
    let of_record = |record: Record<'_>| {
        let points: usize = record.parts().map(|part| part.points().count()).sum();
        let unread = record.items().filter(|item| item.value() == Value::Unread).count();
        assert_eq!(unread, 0, "an accepted sheet has no such item");
        for text in [labels(&record), item_texts(&record)].concat() {
            let again = text.string().map(|string| text.coding.bytes(&string));
            assert!(
                again.is_err() || again == Ok(Ok(text.bytes.to_vec())),
                "{text:?} is turned there and back, or it is not turned"
            );
        }
        points + record.items().count()
    };
    sheet.records().map(of_record).sum()
}

/// Each byte of each small sample, changed: it is refused, or it is read whole and written back with its tails cleared.
#[test]
fn damaged_samples_are_refused_or_written_back() {
    for name in ACCEPTED.into_iter().chain(REFUSED.map(|(name, ..)| name)).filter(|&name| name != "long") {
        let bytes = sample(name);
        for place in 0..bytes.len() {
            for flip in [1, 2, 4, 8, 16, 32, 64, 128, 255] {
                let mut damaged = bytes.clone();
                damaged[place] ^= flip;
                if place >= passport::SUM.after() {
                    put_sum_right(&mut damaged);
                }
                sxf::years::of(&damaged).features.iter().for_each(|feature| assert!(!feature.name(&damaged).is_empty()));
                let Ok(sheet) = Sheet::read(&damaged, Setting::Y2017) else { continue };
                walk(&sheet);
                let (again, cleared) = (sheet.cleared().expect(name), cleared(&damaged));
                assert!(again == cleared, "{name}, byte {place} ^ {flip}");
                assert_eq!(sheet.tails().expect(name).is_clean(), cleared == damaged, "{name}, byte {place} ^ {flip}");
                assert!(written_from_records(&sheet) == cleared, "{name}, byte {place} ^ {flip}, from its records");
            }
        }
    }
}

/// Each number of each small sample's table, changed: it is refused, or what is written unfolds to the same table. ROOM is never given.
#[test]
fn changed_tables_are_refused_or_read_back() {
    for name in ACCEPTED.into_iter().filter(|&name| name != "long") {
        let bytes = sample(name);
        let (head, table) = (read(&bytes).head().expect(name), read(&bytes).into_table());
        for index in 0..table.numbers.len() {
            for number in [0, 1, 2, 3, 8, 127, 128, 255, 256, 65_535, 65_536, 1 << 24, u64::from(u32::MAX), u64::MAX] {
                let mut changed = table.clone();
                changed.numbers[index] = number;
                match write(&head, changed.lend(), Setting::Y2017) {
                    Err(refusal) => assert_ne!(refusal.name(), "ROOM", "{name}, index {index}, number {number}"),
                    Ok(written) => assert_eq!(Table::unfold(&written, Setting::Y2017), Ok(changed)),
                }
            }
        }
    }
}
