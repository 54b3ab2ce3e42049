//! Document 01's own sheets, with the answers it gives for them, and document
//! 02's lake, elements, items, texts, code indexes, hops and tails whose answers
//! are worked out by hand. Both the archive and `second` must give these.

mod hops;
mod indexes;
mod tails;

use crate::archive;
use crate::judge::{Care, Judge};
use crate::numbers::Numbers;
use crate::stored::put;
use second::Refusal;
use sxf_sys::codings::{DOS, KOI8, WINDOWS};
use sxf_sys::dimensions::{EAST, HEIGHT, NORTH};
use sxf_sys::fields::{descriptor, header, passport, START};
use sxf_sys::reference::{ELEMENT_SIZE, FLOATING, SEMANTICS, THREE_DIMENSIONS};
use sxf_sys::refusals::{ASK, COUNT, NO_CHARACTER, OK, ROOM, SEMANTIC, SHORT, SUM, TABLE, TEXT, TOO_NEW};
use sxf_sys::{kinds, row, units, years};

/// The first of the code indexes, of the hops, and of the tails.
const FIRST_INDEX: u64 = 18;
const FIRST_HOP: u64 = FIRST_INDEX + indexes::CASES;
const FIRST_TAIL: u64 = FIRST_HOP + hops::CASES;

/// How many there are.
pub const CASES: u64 = FIRST_TAIL + tails::CASES;

/// Where the metric of the first record starts.
pub const METRIC: usize = START + header::SIZE;

fn sheet_e() -> Vec<u8> {
    let mut sheet = vec![0; START];
    put(&mut sheet, passport::IDENTIFIER, passport::IDENTIFIER_IS);
    put(&mut sheet, passport::OWN_LENGTH, passport::OWN_LENGTH_IS);
    put(&mut sheet, passport::EDITION, passport::EDITION_IS);
    put(&mut sheet, passport::SUM, 795);
    sheet[passport::DESIGNATION.place] = b'A';
    sheet[passport::FLAGS.place] = 3;
    put(&mut sheet, descriptor::IDENTIFIER, descriptor::IDENTIFIER_IS);
    put(&mut sheet, descriptor::OWN_LENGTH, descriptor::OWN_LENGTH_IS);
    sheet[descriptor::DESIGNATION.place] = b'A';
    sheet[descriptor::FLAGS.place] = 3;
    sheet
}

/// Sheet P of document 01: one point, 3 and 4.
pub fn sheet_p() -> Vec<u8> {
    let mut sheet = sheet_e();
    put(&mut sheet, passport::SUM, 1865);
    put(&mut sheet, descriptor::COUNT, 1);
    sheet.resize(METRIC, 0);
    put(&mut sheet, header::IDENTIFIER.at(START), header::IDENTIFIER_IS);
    put(&mut sheet, header::TOTAL.at(START), 36);
    put(&mut sheet, header::METRIC.at(START), 4);
    sheet[header::BYTE20.at(START).place] = 2;
    sheet[header::GENERALISATION.at(START).place] = 255;
    sheet[header::POINTS.at(START).place] = 1;
    sheet.extend_from_slice(&[3, 0, 4, 0]);
    sheet
}

fn sheet_q() -> Vec<u8> {
    let mut sheet = sheet_p();
    put(&mut sheet, passport::SUM, 2384);
    put(&mut sheet, header::TOTAL.at(START), 42);
    sheet[header::BYTE21.at(START).place] = 2;
    sheet.extend_from_slice(&[0x01, 0x00, 0x02, 0xFF, 0xF9, 0x04]);
    sheet
}

/// What document 01 says of a sheet: sum and count, or the refusal.
type Answer = Result<(u64, u64), (u64, u64, u64)>;

fn says(judge: &mut Judge, name: &str, sheet: &[u8], year: u32, answer: Answer) {
    let archive = archive::check(sheet, year);
    let archive = match archive.number {
        OK => Ok((archive.sum, archive.records)),
        number => Err((number, archive.place, archive.year)),
    };
    let refused = |Refusal { number, place, year }| (number, place, year);
    let read = second::read(sheet, year).map(|reading| (reading.sum, reading.records)).map_err(refused);
    let checked = second::check(sheet, year).map(|sizes| (sizes.sum, sizes.records)).map_err(refused);
    judge.same(|| format!("{name}, archive and page"), archive, answer);
    judge.same(|| format!("{name}, page and second"), answer, read);
    judge.same(|| format!("{name}, page and second's check"), answer, checked);
    let years = [(year, Care::Whole)];
    judge.reads(sheet, &years, &mut Numbers::of_case(0, 0, 0));
}

/// Runs one of them.
pub fn run(judge: &mut Judge, case: u64) {
    match case {
        0 => says(judge, "E", &sheet_e(), 2017, Ok((795, 0))),
        1 => {
            let mut sheet = sheet_e();
            put(&mut sheet, passport::SUM, 796);
            says(judge, "E with sum 796", &sheet, 2017, Err((SUM, 12, 0)));
        }
        2 => {
            let cut = &sheet_e()[..451];
            says(judge, "451 bytes of E", cut, 2017, Err((SHORT, 0, 0)));
        }
        3 => says(judge, "P", &sheet_p(), 1999, Ok((1865, 1))),
        4 => says(judge, "Q", &sheet_q(), 1999, Ok((2384, 1))),
        5 | 6 => {
            let mut sheet = sheet_p();
            put(&mut sheet, passport::SUM, 1881);
            sheet[header::BYTE20.at(START).place] = 18;
            let (year, answer) =
                if case == 5 { (2015, Err((TOO_NEW, 472, years::MULTIPOLYGON.into()))) } else { (2016, Ok((1881, 1))) };
            says(judge, "P with a multipolygon", &sheet, year, answer);
        }
        7 => says(judge, "E at 2005", &sheet_e(), 2005, Err((ASK, 0, 0))),
        8 => table_of_p(judge),
        9 => designation(judge, 31, Ok(START as u64)),
        10 => designation(judge, 32, Err((TEXT, 28, 0))),
        11 => record_of_q(judge),
        12 => visibilities(judge),
        13 => coordinates(judge),
        14 => values(judge),
        15 => texts(judge),
        16 => lake_read(judge),
        17 => lake_written(judge),
        FIRST_INDEX..FIRST_HOP => indexes::run(judge, case - FIRST_INDEX),
        FIRST_HOP..FIRST_TAIL => hops::run(judge, case - FIRST_HOP),
        _ => tails::run(judge, case - FIRST_TAIL),
    }
}

fn table_of_p(judge: &mut Judge) {
    let sheet = sheet_p();
    let (mut table, mut elements) = ([9; 11], [9; 2]);
    let answer = archive::unfold(&sheet, 2017, &mut table, &mut elements, &mut []);
    judge.accepted = answer.number == OK;
    judge.same(|| "P unfolded".into(), answer.number, OK);
    judge.same(|| "P's numbers".into(), table, [0, 0, 0, 2, 255, 0, 1, 0, 0, 1, 0]);
    judge.same(|| "P's elements".into(), elements, [3, 4]);
    if let Ok(reading) = second::read(&sheet, 2017) {
        judge.same(|| "P's numbers by second".into(), &table[..], &reading.table.numbers);
    }
}

/// What the listing program prints of Q's record.
fn record_of_q(judge: &mut Judge) {
    let sheet = sheet_q();
    let record = archive::record_at(&sheet, 2017, 0);
    let expected = archive::Record {
        at: START as u64,
        total: 42,
        reference: 0x202,
        generalisation: 255,
        parts: 1,
        items: 1,
        mark: 0,
        points: 1,
        ..archive::Record::default()
    };
    judge.accepted = record.number == OK;
    judge.same(|| "Q's record".into(), record, expected);
    judge.record_at(&sheet, 2017, 0);
    judge.record_at(&sheet, 2017, 1);
}

/// "A lake outline of ten points had an island of 70,000" (document 02, request
/// 2): 70,000 is 65,536 and 0x1170.
fn lake() -> Vec<u8> {
    let mut sheet = sheet_p()[..METRIC].to_vec();
    sheet.resize(METRIC + 40, 1);
    sheet.extend_from_slice(&[1, 0, 0x70, 0x11]);
    sheet.resize(METRIC + 40 + 4 + 280_000, 2);
    put(&mut sheet, header::TOTAL.at(START), 280_076);
    put(&mut sheet, header::METRIC.at(START), 280_044);
    put(&mut sheet, header::WORD.at(START), 10);
    sheet[header::SUBOBJECTS.at(START).place] = 1;
    sheet[header::POINTS.at(START).range()].fill(0xFF);
    put(&mut sheet, passport::SUM, 562_903);
    sheet
}

/// The numbers of the lake's table.
const LAKE: [u64; 13] = [0, 0, 0, 2, 255, 10, 2, 0, 1, 10, 0, 70_000, 0];

fn lake_read(judge: &mut Judge) {
    let sheet = lake();
    let mut unmarked = sheet.clone();
    unmarked[header::POINTS.at(START).range()].copy_from_slice(&[10, 0]);
    put(&mut unmarked, passport::SUM, 562_403);
    says(judge, "the lake without the mark", &unmarked, 2017, Err((COUNT, 524, 0)));
    says(judge, "the lake at 1999", &sheet, 1999, Err((TOO_NEW, 482, years::MARK_65535.into())));
    says(judge, "the lake", &sheet, 2004, Ok((562_903, 1)));
    let (mut table, mut elements) = ([9; LAKE.len()], vec![9; 140_020]);
    let answer = archive::unfold(&sheet, 2017, &mut table, &mut elements, &mut []);
    judge.same(|| "the lake unfolded".into(), answer.number, OK);
    judge.same(|| "the lake's numbers".into(), table, LAKE);
    let record = archive::Record {
        at: START as u64,
        total: 280_076,
        reference: 2,
        generalisation: 255,
        word: 10,
        parts: 2,
        mark: 1,
        points: 10,
        ..archive::Record::default()
    };
    judge.same(|| "the lake's record".into(), archive::record_at(&sheet, 2004, 0), record);
}

fn lake_written(judge: &mut Judge) {
    let sheet = lake();
    let Ok(reading) = second::read(&sheet, 2004) else {
        panic!("the lake is refused");
    };
    let mut numbers = Numbers::of_case(0, 0, 0);
    let table = second::Table { numbers: LAKE.to_vec(), ..reading.table };
    for (name, index, number, year, due) in [
        ("as it is", row::MARK, 1, 2004, (OK, 0, 0)),
        ("at 1999", row::MARK, 1, 1999, (TOO_NEW, 8, years::MARK_65535.into())),
        ("without the mark", row::MARK, 0, 2004, (COUNT, 11, 0)),
        ("with the mark 2", row::MARK, 2, 1999, (TABLE, 8, 0)),
        ("with the word 11", row::WORD, 11, 2004, (COUNT, 9, 0)),
        ("with 2^32 points of the shore", row::ROW_WIDTH + row::POINTS, 1 << 32, 2004, (TABLE, 9, 0)),
        // What stands before the mark's number comes first, and what stands after it later.
        ("with the flag of items at 1999", row::REFERENCE, SEMANTICS | 2, 1999, (TABLE, 7, 0)),
        ("with 2^32 points at 1999", row::ROW_WIDTH + row::POINTS, 1 << 32, 1999, (TOO_NEW, 8, years::MARK_65535.into())),
    ] {
        let mut table = table.clone();
        table.numbers[index] = number;
        let mut out = vec![0; sheet.len()];
        let answer = archive::write(year, &reading.head, &table, &mut out);
        judge.same(|| format!("the lake {name}"), (answer.number, answer.place, answer.year), due);
        judge.same(|| format!("the lake {name}, written or not"), out == sheet, due.0 == OK);
        judge.writes(&reading.head, &table, &[year], &mut numbers);
    }
    judge.accepted = true;
}

fn designation(judge: &mut Judge, length: usize, answer: Result<u64, (u64, u64, u64)>) {
    let Ok(mut reading) = second::read(&sheet_e(), 2017) else {
        panic!("E is refused");
    };
    reading.head.designation = vec![b'A'; length];
    let written = archive::write(2017, &reading.head, &reading.table, &mut [0; START]);
    let archive = match written.number {
        OK => Ok(written.length),
        number => Err((number, written.place, written.year)),
    };
    judge.same(|| format!("a designation of {length}"), archive, answer);
    let mut numbers = Numbers::of_case(0, 0, 0);
    judge.writes(&reading.head, &reading.table, &[2017], &mut numbers);
}

fn visibilities(judge: &mut Judge) {
    let bounds = archive::Visibility { set: 1, lower: 10_000, upper: 10_000_000 };
    let unset = archive::Visibility::default();
    judge.same(|| "0x24".into(), archive::visibility_of(3, 0x24), bounds);
    judge.same(|| "0xFF".into(), archive::visibility_of(3, 0xFF), unset);
    judge.visibility(3, 0x24);
    judge.visibility(3, 0xFF);
    judge.accepted = true;
}

/// Elements whose answers are worked out by hand.
fn coordinates(judge: &mut Judge) {
    let mut real = [0; passport::REST.width];
    real[passport::in_rest(passport::FLAGS).place] = 0x1B;
    let still = [0; passport::REST.width];
    let none = archive::Coordinate::default();
    let is = |unit, width, kind, bits| archive::Coordinate { unit, width, kind, bits, ..none };
    let refused = |number, place| archive::Coordinate { number, place, ..none };
    let (short, long, wide) = (0, ELEMENT_SIZE, ELEMENT_SIZE | FLOATING | THREE_DIMENSIONS);
    let space = THREE_DIMENSIONS;
    let nan = 0x7FF0_0000_0000_0001;
    let points = is(units::DEVICE_POINTS, 2, kinds::WHOLE, 65535f64.to_bits());
    // The least of the singles is a normal double, 2 to the -149.
    let least = is(units::METRES, 4, kinds::SINGLE, 0x36A0_0000_0000_0000);
    for (name, rest, reference, dimension, bits, due) in [
        ("a short 65535", still, short, NORTH, 65535, points),
        ("a long -1", real, long, EAST, 0xFFFF_FFFF, is(units::METRES, 4, kinds::WHOLE, (-1f64).to_bits())),
        ("the least long", real, long, EAST, 1 << 31, is(units::METRES, 4, kinds::WHOLE, (-2_147_483_648f64).to_bits())),
        ("a height of a sheet that is not real", still, space, HEIGHT, 1, least),
        ("a negative zero", real, wide, NORTH, 1 << 63, is(units::METRES, 8, kinds::DOUBLE, 1 << 63)),
        ("a NaN", real, wide, HEIGHT, nan, is(units::METRES, 8, kinds::NAN, nan)),
        ("a height in two dimensions", real, short, HEIGHT, 0, refused(ASK, 0)),
        ("no dimension", real, short, 3, 0, refused(ASK, 0)),
        ("a short too wide", real, short, NORTH, 65536, refused(TABLE, 0)),
        ("four reference bytes", real, 1 << 24, HEIGHT, 0, refused(TABLE, row::REFERENCE as u64)),
    ] {
        let answer = archive::coordinate_of(&rest, reference as u32, dimension, bits);
        judge.same(|| name.into(), answer, due);
        judge.coordinate(&rest, reference as u32, dimension, bits);
    }
    judge.accepted = true;
}

/// Items whose values are worked out by hand.
fn values(judge: &mut Judge) {
    let none = archive::Value::default();
    let double = |kind, bits| archive::Value { kind, bits, ..none };
    let refused = |place| archive::Value { number: SEMANTIC, place, ..none };
    for (kind, scale, bits, due) in [
        // Document 000, example 1: 127.3.
        (2, 0xFF, 0x04F9, archive::Value { kind: kinds::DECIMAL, whole: 1273, power: -1, ..none }),
        (4, 0, 0x1_0000_0001, archive::Value { kind: kinds::DECIMAL, whole: 1, ..none }),
        (8, 0x80, 0x3FF0_0000_0000_0000, double(kinds::DOUBLE, 1f64.to_bits())),
        (8, 0, 0xFFF8_0000_0000_0000, double(kinds::NAN, 0xFFF8_0000_0000_0000)),
        (126, 3, 0x4142_4344, none),
        (1, 0x80, 0, refused(3)),
        (3, 0x80, 0, refused(2)),
    ] {
        judge.same(|| format!("type {kind}, bits {bits:#x}"), archive::value_of(kind, scale, bits), due);
        judge.value(kind, scale, bits);
    }
    judge.accepted = true;
}

/// Texts whose characters are worked out by hand: «ГаЁ», a zero, a control, and
/// byte 0x98, which has a character in two of the codings.
fn texts(judge: &mut Judge) {
    let none = archive::Written::default();
    let refused = |number, place| archive::Written { number, place, ..none };
    let mut numbers = Numbers::of_case(0, 0, 0);
    for (coding, text, units) in [
        (DOS, [0x83, 0xA0, 0xF0, 0, 0x1B, 0x98], [0x413, 0x430, 0x401, 0, 0x1B, 0x428]),
        (KOI8, [0xE7, 0xC1, 0xB3, 0, 0x1B, 0x98], [0x413, 0x430, 0x401, 0, 0x1B, 0x2264]),
        (WINDOWS, [0xC3, 0xE0, 0xA8, 0, 0x1B, 0x99], [0x413, 0x430, 0x401, 0, 0x1B, 0x2122]),
    ] {
        let (mut there, mut back) = ([9; 6], [9; 6]);
        let answers = (archive::to_utf16(coding, &text, &mut there), archive::from_utf16(coding, &units, &mut back));
        let whole = archive::Written { length: text.len() as u64, ..none };
        judge.same(|| format!("coding {coding}"), answers, (whole, whole));
        judge.same(|| format!("coding {coding} there"), there, units);
        judge.same(|| format!("coding {coding} back"), back, text);
        judge.text(coding, &text, &mut numbers);
        judge.units(coding, &units, &mut numbers);
    }
    for (coding, text, due) in [
        (WINDOWS, [0x41, 0x98], refused(NO_CHARACTER, 1)),
        (DOS, [0x41, 0x98], refused(ROOM, 0)),
        (3, [0x41, 0x98], refused(ASK, 0)),
    ] {
        judge.same(|| format!("0x98 in coding {coding}"), archive::to_utf16(coding, &text, &mut [9]), due);
        judge.text(coding, &text, &mut numbers);
    }
    judge.accepted = true;
}
