//! Sheets to try the wrapper on: the samples, and sheets of so many records.
#![allow(dead_code, reason = "no file of tests uses all of it")]

use std::fs;
use std::path::PathBuf;
use sxf::fields::{descriptor, passport, Field};
use sxf::{Head, Localisation, NewPart, NewRecord, Number, Point, Reference, Setting, Sheet, Writer};

/// How many codes the records of a sheet have in turn. A block of an index has 56 entries, or 63 in an old file, so blocks begin with different codes.
pub const CODES: usize = 5;

/// A code that needs all four bytes.
pub const FIRST_CODE: u32 = 4_294_967_291;

/// The code of a record.
pub fn code(number: usize) -> u32 {
    FIRST_CODE + (number % CODES) as u32
}

/// A record of this code, with so many points.
pub fn record(code: u32, localisation: Localisation, points: usize) -> NewRecord {
    let zero = sxf::Unit::DevicePoints.coordinate(Number::Whole(0));
    let part = NewPart::new(vec![Point { x: zero, y: zero, height: None }; points]);
    NewRecord::new(code, Reference::new(localisation)).part(part)
}

/// A sheet of these records.
pub fn written(head: Head<'_>, records: impl IntoIterator<Item = NewRecord>) -> Vec<u8> {
    let mut writer = Writer::new(head).expect("a right head");
    records.into_iter().for_each(|record| writer.push(&record).expect("a record that fits"));
    writer.write(Setting::Y2017).expect("a sheet")
}

pub fn read(bytes: &[u8]) -> Sheet<'_> {
    Sheet::read(bytes, Setting::Y2017).expect("an accepted sheet")
}

/// The samples that are accepted at the newest setting.
pub const ACCEPTED: [&str; 18] = [
    "E",
    "P",
    "Q",
    "head",
    "labels",
    "heights",
    "floating",
    "items",
    "long",
    "mark-small",
    "frame",
    "dated",
    "cyrillic-dos",
    "cyrillic-windows",
    "cyrillic-koi8",
    "no-character",
    "dirty-tail",
    "old-letters",
];

/// Those of them that have old letters after the first zero of a text field.
pub const DIRTY: [&str; 2] = ["dirty-tail", "old-letters"];

/// The four text fields, with the names of their texts.
pub const TEXT_FIELDS: [(&str, Field); 4] = [
    ("date", passport::DATE),
    ("designation", passport::DESIGNATION),
    ("title", passport::TITLE),
    ("designation2", descriptor::DESIGNATION),
];

pub fn put_sum_right(sheet: &mut [u8]) {
    sheet[passport::SUM.range()].fill(0);
    let sum = whole_sum(sheet) as u32;
    sheet[passport::SUM.range()].copy_from_slice(&sum.to_le_bytes());
}

/// The sum of all bytes, of which a sheet keeps the low 32 bits.
pub fn whole_sum(bytes: &[u8]) -> u64 {
    bytes.iter().map(|&byte| u64::from(byte)).sum()
}

/// A sheet's bytes "with those tails cleared and the sum to match" (02, request 6), worked out here.
pub fn cleared(sheet: &[u8]) -> Vec<u8> {
    let mut sheet = sheet.to_vec();
    for (_, field) in TEXT_FIELDS {
        sheet[field.range()].iter_mut().skip_while(|byte| **byte != 0).for_each(|byte| *byte = 0);
    }
    put_sum_right(&mut sheet);
    sheet
}

pub fn sample(name: &str) -> Vec<u8> {
    let path = PathBuf::from(env!("CARGO_MANIFEST_DIR")).join("../../samples").join(name).with_extension("sxf");
    fs::read(&path).unwrap_or_else(|error| panic!("{}: {error}", path.display()))
}
