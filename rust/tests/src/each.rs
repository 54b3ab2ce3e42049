//! What is gone through one by one: every bit and every cut of a sheet, every
//! value of a byte, every number of a table.

use crate::heads::{head, SETTINGS};
use crate::judge::{Care, Judge};
use crate::known::{sheet_p, METRIC};
use crate::numbers::Numbers;
use crate::sheets::{put_sum_right, Made};
use crate::table_damage::EDGES;
use crate::tables::closing_zeros;
use second::{Head, Table};
use sxf_sys::fields::{descriptor, header, passport, Field, START};
use sxf_sys::reference::{SEMANTICS, TEXT_IN_METRIC};
use sxf_sys::{row, MARK};

/// Each bit of a sheet turned, alone, and the sum put right unless it is the
/// sum's bit.
pub fn bits(judge: &mut Judge, made: &Made, year: u32, numbers: &mut Numbers) {
    let mut sheet = made.sheet.clone();
    for at in 0..sheet.len() {
        for bit in 0..8 {
            sheet[at] ^= 1 << bit;
            if !passport::SUM.range().contains(&at) {
                put_sum_right(&mut sheet);
            }
            let before = judge.disagreements.len();
            let other = numbers.pick(&SETTINGS);
            let years = [(year, Care::Once), (other, Care::Check)];
            judge.reads_in_place(&sheet, &years, numbers);
            judge.context(before, || format!("bit {bit} of {at} turned"));
            sheet.copy_from_slice(&made.sheet);
        }
    }
    judge.accepted = true;
}

/// A sheet cut at each place, without each byte, and with one more byte at
/// each place; the sum put right.
pub fn cuts(judge: &mut Judge, made: &Made, year: u32, numbers: &mut Numbers) {
    let whole = &made.sheet;
    let mut sheet = Vec::new();
    for at in 0..=whole.len() {
        let after = whole.get(at + 1..).unwrap_or(&[]);
        let any = [numbers.byte()];
        for (name, end) in [
            ("ends", vec![]),
            ("lacks a byte", vec![after]),
            ("has a zero more", vec![&[0], &whole[at..]]),
            ("has a byte more", vec![&any, &whole[at..]]),
            ("has a byte twice", vec![&whole[at.max(1) - 1..]]),
        ] {
            sheet.clear();
            sheet.extend_from_slice(&whole[..at]);
            end.iter().for_each(|bytes| sheet.extend_from_slice(bytes));
            put_sum_right(&mut sheet);
            let before = judge.disagreements.len();
            judge.reads_in_place(&sheet, &[(year, Care::Once)], numbers);
            judge.context(before, || format!("{name} at {at}"));
        }
    }
    judge.accepted = true;
}

/// Each number of a table replaced by each edge, and by its neighbours.
pub fn table_numbers(judge: &mut Judge, head: &Head, table: &Table, year: u32, numbers: &mut Numbers) {
    let mut altered = table.clone();
    for at in 0..table.numbers.len() {
        let old = table.numbers[at];
        let around = [old.wrapping_add(1), old.wrapping_sub(1)];
        for new in EDGES.into_iter().chain(around) {
            altered.numbers[at] = new;
            let before = judge.disagreements.len();
            writes(judge, head, &altered, &[year], numbers);
            judge.context(before, || format!("number {at} from {old} to {new}"));
        }
        altered.numbers[at] = old;
    }
    judge.accepted = true;
}

fn writes(judge: &mut Judge, head: &Head, table: &Table, years: &[u32], numbers: &mut Numbers) {
    for &year in years {
        let due = second::write(year, head, table, usize::MAX);
        let length = due.as_ref().map_or(40, Vec::len);
        let room = length + numbers.index(4);
        judge.write(year, head, table, room, &due);
    }
}

/// All settings; the last has all features, and is asked more.
fn all() -> [(u32, Care); 9] {
    SETTINGS.map(|year| (year, if year == 2017 { Care::Once } else { Care::Check }))
}

/// One value of a byte, in each byte of the heads, in each reference byte
/// with all values of another, as an item's type with all scales, as the
/// length of a text and of a value, and as counts of points.
pub fn byte(judge: &mut Judge, value: u8, numbers: &mut Numbers) {
    heads(judge, value, numbers);
    references(judge, value, numbers);
    items(judge, value, numbers);
    lengths(judge, value, numbers);
    counts(judge, value, numbers);
    judge.accepted = true;
}

fn heads(judge: &mut Judge, value: u8, numbers: &mut Numbers) {
    let plain = sheet_p();
    for place in (0..passport::SUM.place).chain(passport::SUM.after()..START) {
        let mut sheet = plain.clone();
        sheet[place] = value;
        // The unit's byte tells nothing unless the sheet is real: by its
        // flags, by a negative resolution, or by its accuracy.
        let real = numbers.below(3);
        if place == passport::UNIT.place {
            match real {
                0 => sheet[passport::FLAGS.place] |= 0x18,
                1 => sheet[passport::RESOLUTION.after() - 1] = 0x80,
                _ => sheet[passport::ACCURACY.place] = 1,
            }
        }
        put_sum_right(&mut sheet);
        let before = judge.disagreements.len();
        judge.reads_in_place(&sheet, &all(), numbers);
        judge.context(before, || format!("P with {value} at {place}"));
        if let Ok(reading) = second::read(&plain, 1999) {
            let mut head = reading.head;
            if passport::REST.range().contains(&place) {
                head.rest[place - passport::REST.place] = value;
            } else if descriptor::CARRIED.range().contains(&place) {
                head.carried[place - descriptor::CARRIED.place] = value;
            } else {
                continue;
            }
            let before = judge.disagreements.len();
            writes(judge, &head, &reading.table, &SETTINGS, numbers);
            judge.context(before, || format!("P's table with {value} at {place}"));
        }
    }
}

/// Each reference number with the value in one of its bytes, with the mark or
/// without, and with an item or none, which mostly agrees with its flag.
fn references(judge: &mut Judge, value: u8, numbers: &mut Numbers) {
    for other in 0..=255 {
        for [low, middle, high] in [[value, 0, other], [value, other, 0], [3, value, other], [5, other, value]] {
            let reference = u64::from(u32::from_le_bytes([low, middle, high, 0]));
            let mark = numbers.pick(&[0, 0, 0, 1, 1, 2]);
            let has_item = (reference & SEMANTICS != 0) == numbers.chance(7, 8);
            let before = judge.disagreements.len();
            reference_written(judge, reference, mark, has_item, numbers);
            reference_read(judge, reference, mark, has_item, numbers);
            judge.context(before, || format!("reference {reference:#x}, mark {mark}, an item: {has_item}"));
        }
    }
}

fn reference_written(judge: &mut Judge, reference: u64, mark: u64, has_item: bool, numbers: &mut Numbers) {
    let item = row::Item { code: 6, kind: 2, scale: 0xFF, length: 2 };
    let (items, bytes) = if has_item { (&[item][..], vec![7, 8]) } else { (&[][..], vec![]) };
    let mut table = without_points(reference, 0, items, bytes);
    if mark != 0 {
        // Under the mark the word is the first count.
        (table.numbers[row::WORD], table.numbers[row::MARK]) = (0, mark);
    }
    let years = [numbers.pick(&SETTINGS), numbers.pick(&SETTINGS)];
    writes(judge, &plain_head(), &table, &years, numbers);
}

fn reference_read(judge: &mut Judge, reference: u64, mark: u64, has_item: bool, numbers: &mut Numbers) {
    let metric: &[u8] = if reference & TEXT_IN_METRIC != 0 { &[0, 0] } else { &[] };
    let semantics: &[u8] = if has_item { &[6, 0, 2, 0xFF, 7, 8] } else { &[] };
    let record = row::Record { reference, parts: 1, ..row::Record::default() };
    let sheet = sheet_with(&record, if mark == 0 { 0 } else { MARK }, metric, semantics);
    judge.reads_in_place(&sheet, &all(), numbers);
}

/// An item of this type with each scale, its value as long as it must be.
fn items(judge: &mut Judge, kind: u8, numbers: &mut Numbers) {
    for scale in 0..=255u8 {
        let length = match kind {
            0 | 126 => u64::from(scale) + 1,
            127 => 2 * (u64::from(scale) + 1),
            8 => 8,
            _ => 4.min(u64::from(kind)).max(2),
        };
        item(judge, kind, scale, length, numbers);
    }
}

/// A part's text and a type 128 value of this length.
fn lengths(judge: &mut Judge, length: u8, numbers: &mut Numbers) {
    item(judge, 128, 255, u64::from(length), numbers);
    let bytes = vec![9; usize::from(length)];
    let table = without_points(TEXT_IN_METRIC | LABEL, u64::from(length), &[], bytes.clone());
    let metric = [&[length], &bytes[..], &[0]].concat();
    both(judge, &table, sheet_of(TEXT_IN_METRIC | LABEL, &metric, &[]), &[2004, 2017], numbers);
}

fn item(judge: &mut Judge, kind: u8, scale: u8, length: u64, numbers: &mut Numbers) {
    let mut bytes = vec![9; length as usize];
    let text = bytes.len().saturating_sub(closing_zeros(u64::from(kind)));
    bytes[text..].fill(0);
    let item = row::Item { code: 6, kind: kind.into(), scale: scale.into(), length };
    let table = without_points(SEMANTICS, 0, &[item], bytes.clone());
    let long_length = if kind == 128 { (length as u32).to_le_bytes().to_vec() } else { Vec::new() };
    let semantics = [&[6, 0, kind, scale], &long_length[..], &bytes].concat();
    both(judge, &table, sheet_of(SEMANTICS, &[], &semantics), &[2008, 2017], numbers);
}

/// Two parts of so many points, without the mark and under it, with a word that
/// is the first count and with others; and the count of the later part moved up
/// into N1, which calls for points that are not there.
fn counts(judge: &mut Judge, count: u8, numbers: &mut Numbers) {
    // Two elements of two bytes each make a point.
    let elements = vec![0; 2 * usize::from(count)];
    let points = vec![0; 2 * elements.len()];
    let count = u64::from(count);
    for (mark, word) in [(0, count), (1, count), (1, count + 1), (1, count ^ 1 << 16), (2, count)] {
        let record = row::Record { word, parts: 2, mark, ..row::Record::default() };
        let at_30 = if mark == 0 { count } else { MARK };
        for later in [count, count << 16, count << 24] {
            let parts = [count, later].map(|points| row::Part { points, text_length: 0 }.numbers());
            let table = Table {
                numbers: [&record.numbers()[..], parts.as_flattened()].concat(),
                elements: [&elements[..], &elements].concat(),
                bytes: Vec::new(),
            };
            // N1 stands before N2.
            let head = (later as u32).rotate_left(16).to_le_bytes();
            let metric = [&points[..], &head, &points].concat();
            both(judge, &table, sheet_with(&record, at_30, &metric, &[]), &[1999, 2004], numbers);
        }
    }
}

/// Writes a table, and reads the sheet that it would be written to if nothing
/// were refused.
fn both(judge: &mut Judge, table: &Table, mut sheet: Vec<u8>, years: &[u32], numbers: &mut Numbers) {
    let before = judge.disagreements.len();
    writes(judge, &plain_head(), table, years, numbers);
    for &year in years {
        judge.reads_in_place(&sheet, &[(year, Care::Once)], numbers);
    }
    // Once more with another last byte, so that no text or value is closed.
    if let Some(last) = sheet.last_mut() {
        *last ^= 1;
    }
    put_sum_right(&mut sheet);
    judge.reads_in_place(&sheet, &[(2017, Care::Once)], numbers);
    judge.context(before, || format!("{:?} and its sheet", table.numbers));
}

/// The localisation that may have a text.
const LABEL: u64 = 3;

/// A table of one record of one part without points, with a text of this
/// length or items.
fn without_points(reference: u64, text_length: u64, items: &[row::Item], bytes: Vec<u8>) -> Table {
    let count = items.len() as u64;
    let record =
        row::Record { code: 1, in_group: 2, group: 3, reference, generalisation: 4, word: 5, parts: 1, items: count, mark: 0 };
    let part = row::Part { points: 0, text_length };
    let mut numbers = [&record.numbers()[..], &part.numbers()].concat();
    numbers.extend(items.iter().flat_map(|item| item.numbers()));
    Table { numbers, elements: Vec::new(), bytes }
}

/// Sheet P with another record of no points, this metric and this semantics.
fn sheet_of(reference: u64, metric: &[u8], semantics: &[u8]) -> Vec<u8> {
    let record = row::Record { reference, parts: 1, ..row::Record::default() };
    sheet_with(&record, 0, metric, semantics)
}

/// Sheet P with another record of this reference, word and number of parts, of
/// these points at +30, this metric and this semantics.
fn sheet_with(record: &row::Record, points: u64, metric: &[u8], semantics: &[u8]) -> Vec<u8> {
    let mut sheet = sheet_p()[..METRIC].to_vec();
    let total = header::SIZE + metric.len() + semantics.len();
    let mut put = |field: Field, number: u64| {
        let field = field.at(START);
        sheet[field.range()].copy_from_slice(&number.to_le_bytes()[..field.width]);
    };
    put(header::TOTAL, total as u64);
    put(header::METRIC, metric.len() as u64);
    put(header::REFERENCE, record.reference);
    put(header::WORD, record.word);
    put(header::SUBOBJECTS, record.parts - 1);
    put(header::POINTS, points);
    sheet.extend_from_slice(metric);
    sheet.extend_from_slice(semantics);
    put_sum_right(&mut sheet);
    sheet
}

/// A head that has only what it must in the rest and the carried bytes.
fn plain_head() -> Head {
    let mut head = head(&mut Numbers::of_case(0, 0, 0), 1999);
    head.rest = [0; passport::REST.width];
    head.rest[passport::in_rest(passport::FLAGS).place] = 3;
    head.carried = [3, 0, 0, 0];
    head
}
