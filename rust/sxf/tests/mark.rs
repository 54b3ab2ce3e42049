//! The mark 65535: where the writer sets it, what stands in the word at +24 then, and what a record that was read keeps of both.
use sxf::fields::{header, Field, START};
use sxf::{
    record_at, row, Head, Localisation, NewPart, NewRecord, Number, Point, Reference, Refusal, Setting, Sheet, Unit, Writer,
};

/// The word that a record is given here. No first part has so many points.
const WORD: u32 = 7;

/// A record with parts of so many points.
fn with_points(counts: &[usize]) -> NewRecord {
    let zero = Unit::DevicePoints.coordinate(Number::Whole(0));
    let part = |&count: &usize| NewPart::new(vec![Point { x: zero, y: zero, height: None }; count]);
    let record = NewRecord { word: WORD, ..NewRecord::new(31_120_000, Reference::new(Localisation::Areal)) };
    counts.iter().map(part).fold(record, NewRecord::part)
}

fn pushed(records: &[NewRecord]) -> Writer<'static> {
    let mut writer = Writer::new(Head::PLAIN).expect("a plain head");
    records.iter().for_each(|record| writer.push(record).expect("a record that fits"));
    writer
}

/// A sheet of one record.
fn sheet_of(record: &NewRecord) -> Vec<u8> {
    pushed(std::slice::from_ref(record)).write(Setting::Y2017).expect("a sheet")
}

fn read(sheet: &[u8]) -> Sheet<'_> {
    Sheet::read(sheet, Setting::Y2017).expect("an accepted sheet")
}

/// The points at +30 of the first record and its word at +24, as they are stored.
fn stored(sheet: &[u8]) -> (usize, usize) {
    let number =
        |field: Field| sheet[field.at(START).range()].iter().rev().fold(0, |number, &byte| number << 8 | usize::from(byte));
    (number(header::POINTS), number(header::WORD))
}

/// A shore and its islands, of so many points, and whether they need the mark.
const COUNTS: [(&[usize], bool); 10] = [
    (&[0], false),
    (&[10], false),
    (&[65_534], false),
    (&[65_535], true),
    (&[70_000], true),
    (&[10, 70_000], true),
    (&[10, 65_535], false),
    (&[10, 65_536], true),
    (&[65_534, 65_535, 65_535], false),
    (&[0, 1, 65_536], true),
];

/// The mark is set where it is asked for or a count needs it. The word is then the first part's points, and else the one that was given.
#[test]
fn the_writer_sets_the_mark_and_its_word() {
    for (counts, needed) in COUNTS {
        for record in [with_points(counts), with_points(counts).mark()] {
            let bytes = sheet_of(&record);
            let (points, word) = if needed || record.mark { (65_535, counts[0]) } else { (counts[0], WORD as usize) };
            assert_eq!(stored(&bytes), (points, word), "{counts:?}, asked for: {}", record.mark);
        }
    }
}

/// What is written so is read so, by the table and by the record asked for, and its records are written again.
#[test]
fn the_mark_is_read_back() {
    for (counts, needed) in COUNTS {
        for record in [with_points(counts), with_points(counts).mark()] {
            let (bytes, mark) = (sheet_of(&record), needed || record.mark);
            let sheet = read(&bytes);
            assert_eq!(sheet.sizes().numbers, 9 + 2 * counts.len(), "nine numbers a record, and two a part");
            let again = sheet.record(0).expect("a record");
            assert_eq!((again.mark(), again.first_points() as usize), (mark, counts[0]), "{counts:?}");
            assert_eq!(again.parts().map(|part| part.points().len()).collect::<Vec<_>>(), counts);
            let asked = record_at(&bytes, Setting::Y2017, 0).expect("a record");
            assert_eq!((asked.mark, asked.word, asked.points), (mark, again.word(), counts[0] as u32), "{counts:?}");
            assert!(sheet_of(&again.into()) == bytes, "{counts:?}");
        }
    }
}

/// A record that was read keeps its mark with a small count, and the word follows its points. Without the mark the word is carried.
#[test]
fn a_record_that_was_read_keeps_its_mark() {
    let bytes = include_bytes!("../../../samples/mark-small.sxf");
    let [lake, beside] = [0, 1].map(|number| NewRecord::from(read(bytes).record(number).expect("a record")));
    assert_eq!([lake.mark, beside.mark], [true, false]);
    assert_eq!([stored(&sheet_of(&lake)), stored(&sheet_of(&beside))], [(65_535, 4), (4, 4)]);
    let mut shorter = lake;
    shorter.parts[0].points.pop();
    assert_eq!(stored(&sheet_of(&shorter)), (65_535, 3));
    assert_eq!(stored(&sheet_of(&NewRecord { mark: false, ..shorter })), (3, 4));
}

/// Without the island that needed it the mark is still there, until it is taken away by hand; the old count is then the word that is carried.
#[test]
fn the_mark_outlasts_the_island_that_needed_it() {
    let bytes = sheet_of(&with_points(&[10, 70_000]));
    let mut shore = NewRecord::from(read(&bytes).record(0).expect("a record"));
    shore.parts.truncate(1);
    shore.parts[0].points.pop();
    let too_new = Refusal { number: Refusal::TOO_NEW, place: row::MARK, year: 2004 };
    assert_eq!(pushed(std::slice::from_ref(&shore)).write(Setting::Y1999), Err(too_new));
    assert_eq!(stored(&sheet_of(&shore)), (65_535, 9));
    shore.mark = false;
    assert!(pushed(std::slice::from_ref(&shore)).write(Setting::Y1999).is_ok());
    assert_eq!(stored(&sheet_of(&shore)), (9, 10));
}

/// "The mark's year stays 2004, and the writer's TOO NEW now stands at the mark's number" (02, request 2), asked for or not.
#[test]
fn a_mark_that_is_too_new_is_told_at_its_number() {
    for marked in [with_points(&[10]).mark(), with_points(&[70_000]), with_points(&[10, 70_000])] {
        let writer = pushed(&[with_points(&[10]), marked]);
        let index = row::row_size(1, 0) + row::MARK;
        assert_eq!(writer.write(Setting::Y1999), Err(Refusal { number: Refusal::TOO_NEW, place: index, year: 2004 }));
        assert_eq!(writer.table().spot(index).map(|spot| spot.to_string()).as_deref(), Some("record 1, mark"));
        assert!(writer.write(Setting::Y2004).is_ok());
    }
}
