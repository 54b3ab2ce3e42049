//! The documents' sheets and cases, and what follows from their rules.

mod codings;
mod coordinates;
mod hop;
mod index;
mod limits;
mod meanings;
mod random;
mod reading;
mod tails;
mod writing;

use crate::{Head, Reading, Refusal, Sizes, Table};

/// A refusal with no year.
fn refused(number: u64, place: u64) -> Refusal {
    Refusal { number, place, year: 0 }
}

/// TOO NEW.
fn too_new(place: u64, year: u64) -> Refusal {
    Refusal { number: 8, place, year }
}

/// The sheet with its sum put right.
fn summed(mut sheet: Vec<u8>) -> Vec<u8> {
    sheet[12..16].fill(0);
    let mut sum = 0u64;
    for &byte in &sheet {
        sum += u64::from(byte);
    }
    sheet[12..16].copy_from_slice(&(sum as u32).to_le_bytes());
    sheet
}

/// The sheet with bytes changed, and its sum put right.
fn changed(sheet: &[u8], changes: &[(usize, &[u8])]) -> Vec<u8> {
    let mut sheet = sheet.to_vec();
    for (place, bytes) in changes {
        sheet[*place..place + bytes.len()].copy_from_slice(bytes);
    }
    summed(sheet)
}

/// The sizes of what was read.
fn sizes_of(reading: &Reading) -> Sizes {
    Sizes {
        sum: reading.sum,
        records: reading.records,
        numbers: reading.table.numbers.len() as u64,
        elements: reading.table.elements.len() as u64,
        bytes: reading.table.bytes.len() as u64,
    }
}

/// Sheet E.
fn sheet_e() -> Vec<u8> {
    let mut sheet = vec![0; 452];
    sheet[..12].copy_from_slice(&[0x53, 0x58, 0x46, 0, 0x90, 1, 0, 0, 0, 0, 4, 0]);
    sheet[28] = b'A';
    sheet[96] = 3;
    sheet[400..408].copy_from_slice(&[0x44, 0x41, 0x54, 0, 52, 0, 0, 0]);
    sheet[408] = b'A';
    sheet[444] = 3;
    sheet[12..16].copy_from_slice(&795u32.to_le_bytes());
    sheet
}

/// Sheet E with these records.
fn sheet_with(records: &[Vec<u8>]) -> Vec<u8> {
    let mut sheet = sheet_e();
    sheet[440] = records.len() as u8;
    for record in records {
        sheet.extend_from_slice(record);
    }
    summed(sheet)
}

/// A record of generalisation 255 with these fields, its other numbers zero.
fn record(reference: [u8; 3], word: u32, subobjects: u16, points: u16, metric: &[u8], semantics: &[u8]) -> Vec<u8> {
    let total = (32 + metric.len() + semantics.len()) as u32;
    let mut record = vec![0xFF, 0x7F, 0xFF, 0x7F];
    record.extend_from_slice(&total.to_le_bytes());
    record.extend_from_slice(&(metric.len() as u32).to_le_bytes());
    record.extend_from_slice(&[0; 8]);
    record.extend_from_slice(&reference);
    record.push(255);
    record.extend_from_slice(&word.to_le_bytes());
    record.extend_from_slice(&subobjects.to_le_bytes());
    record.extend_from_slice(&points.to_le_bytes());
    record.extend_from_slice(metric);
    record.extend_from_slice(semantics);
    record
}

const POINT_3_4: [u8; 4] = [3, 0, 4, 0];

/// The record of sheet P.
fn record_p() -> Vec<u8> {
    record([2, 0, 0], 0, 0, 1, &POINT_3_4, &[])
}

/// P's record with this code and byte 20.
fn coded(code: u32, byte20: u8) -> Vec<u8> {
    let mut record = record_p();
    record[12..16].copy_from_slice(&code.to_le_bytes());
    record[20] = byte20;
    record
}

/// Sheet P.
fn sheet_p() -> Vec<u8> {
    sheet_with(&[record_p()])
}

/// Sheet Q.
fn sheet_q() -> Vec<u8> {
    sheet_with_item(&[1, 0, 2, 0xFF, 0xF9, 4])
}

/// Sheet P with this semantics; it starts at 488.
fn sheet_with_item(semantics: &[u8]) -> Vec<u8> {
    sheet_with(&[record([2, 2, 0], 0, 0, 1, &POINT_3_4, semantics)])
}

/// What the writer takes for sheet E beside the table.
fn head_e() -> Head {
    let mut rest = [0; 304];
    rest[0] = 3;
    Head {
        date: vec![],
        designation: b"A".to_vec(),
        scale: 0,
        title: vec![],
        rest,
        designation2: b"A".to_vec(),
        carried: [3, 0, 0, 0],
    }
}

fn table_p() -> Table {
    Table { numbers: vec![0, 0, 0, 2, 255, 0, 1, 0, 0, 1, 0], elements: vec![3, 4], bytes: vec![] }
}

fn table_q() -> Table {
    Table { numbers: vec![0, 0, 0, 0x0202, 255, 0, 1, 1, 0, 1, 0, 1, 2, 0xFF, 2], elements: vec![3, 4], bytes: vec![0xF9, 4] }
}

/// Where numbers stand in a table's first row: the record's own, then points
/// and text length of its first part and the points of its second.
const REFERENCE: u64 = 3;
const PARTS: u64 = 6;
const ITEMS: u64 = 7;
const MARK: u64 = 8;
const POINTS: u64 = 9;
const TEXT_LENGTH: u64 = 10;
const LATER_POINTS: u64 = 11;

/// The most that four bytes hold.
const MOST: u64 = u32::MAX as u64;

/// A shore of ten points, and islands about the most that two bytes count; the
/// last is the lake's of document 02, request 2.
const SHORE: u64 = 10;
const ISLANDS: [u64; 3] = [65_535, 65_536, 70_000];
