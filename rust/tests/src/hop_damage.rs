//! Damage done to what a hop looks at: the sheet's length, its identifiers and
//! its count, and the identifiers and total lengths of headers.

use crate::numbers::Numbers;
use crate::places::Bounds;
use crate::stored::{put_if_there, u32_in};
use sxf_sys::fields::{descriptor, header, passport, Field, START};

/// This count, 0, and counts that a slip could take for it: beside it, the same
/// in fewer bytes, and about the most that four bytes hold, with a sign and
/// without.
pub fn counts(own: u32) -> Vec<u32> {
    let beside = [0, own.wrapping_sub(1), own, own.wrapping_add(1)];
    [&beside[..], &in_fewer_bytes(own), &EDGES].concat()
}

/// Total lengths for the record at a place, of a sheet of this length, that has
/// this one: about the least, about its own, about the most that fits, the same in
/// fewer bytes, about the most that four bytes hold, and the one with which, in
/// 32 bits, the first header would be the next.
pub fn totals(own: u32, at: usize, length: usize) -> Vec<u32> {
    let beside = [own.wrapping_sub(1), own, own.wrapping_add(1)];
    let to_the_end = length.saturating_sub(at) as u32;
    let about_the_end = [to_the_end.wrapping_sub(1), to_the_end, to_the_end.wrapping_add(1)];
    let back = [(START as u32).wrapping_sub(at as u32)];
    [&LEAST[..], &beside, &about_the_end, &in_fewer_bytes(own), &EDGES, &back].concat()
}

/// Total lengths about the least that there is.
const LEAST: [u32; 5] = [0, 1, header::SIZE as u32 - 1, header::SIZE as u32, header::SIZE as u32 + 1];

/// Identifiers that a slip could take for a record's: its bytes in the other
/// order, half of it, that of graphics, that of the passport, and zero.
pub const IDENTIFIERS: [u32; 6] =
    [header::IDENTIFIER_IS.swap_bytes(), 0x7FFF_0000, 0x0000_7FFF, 0x7FFF_7FFE, passport::IDENTIFIER_IS, 0];

/// The edges of numbers of four bytes.
const EDGES: [u32; 4] = [i32::MAX as u32, 1 << 31, u32::MAX - 1, u32::MAX];

/// Other numbers that are the same in one byte, in two, in three, or without
/// their highest bit.
fn in_fewer_bytes(number: u32) -> [u32; 4] {
    [8, 16, 24, 31].map(|bit| number ^ 1 << bit)
}

/// One or two damages, mostly one, to a sheet that had these records before.
pub fn damage(numbers: &mut Numbers, sheet: &mut Vec<u8>, records: &[Bounds]) -> Vec<String> {
    (0..numbers.pick(&[1, 1, 1, 2])).map(|_| once(numbers, sheet, records)).collect()
}

/// Damages a sheet, and says how.
fn once(numbers: &mut Numbers, sheet: &mut Vec<u8>, records: &[Bounds]) -> String {
    let record = (!records.is_empty()).then(|| numbers.pick(records));
    match (numbers.below(8), record) {
        (0, _) => cut(numbers, sheet, START),
        (1, _) => {
            let field = numbers.pick(&[passport::IDENTIFIER, descriptor::IDENTIFIER]);
            identifier(numbers, sheet, field)
        }
        (2, _) | (_, None) => count(numbers, sheet),
        (3 | 4, Some(record)) => identifier(numbers, sheet, header::IDENTIFIER.at(record.at)),
        (5 | 6, Some(record)) => total(numbers, sheet, record.at),
        (_, Some(record)) => {
            let about = numbers.pick(&[record.at, record.at, record.end]);
            cut(numbers, sheet, about)
        }
    }
}

/// The sheet cut one byte before a place, there, or up to a header's length after
/// it.
fn cut(numbers: &mut Numbers, sheet: &mut Vec<u8>, about: usize) -> String {
    let length = about - 1 + numbers.pick(&[0, 1, 2, 5, 9, 13, header::SIZE, header::SIZE + 1]);
    sheet.truncate(length);
    format!("cut to {} bytes", sheet.len())
}

fn identifier(numbers: &mut Numbers, sheet: &mut [u8], field: Field) -> String {
    let turned = u32_in(sheet, field) ^ 1 << numbers.below(32);
    let other = numbers.pick(&IDENTIFIERS);
    let identifier = numbers.pick(&[turned, other]);
    put_if_there(sheet, field, identifier);
    format!("identifier {identifier:#x} at {}", field.place)
}

fn count(numbers: &mut Numbers, sheet: &mut [u8]) -> String {
    let own = u32_in(sheet, descriptor::COUNT);
    let fewer = numbers.below(u64::from(own) + 1) as u32;
    let other = numbers.pick(&counts(own));
    let count = numbers.pick(&[fewer, other, other]);
    put_if_there(sheet, descriptor::COUNT, count);
    format!("count {count}")
}

fn total(numbers: &mut Numbers, sheet: &mut [u8], at: usize) -> String {
    let field = header::TOTAL.at(at);
    let other = numbers.pick(&totals(u32_in(sheet, field), at, sheet.len()));
    let about_the_least = numbers.pick(&LEAST);
    let total = numbers.pick(&[about_the_least, other]);
    put_if_there(sheet, field, total);
    format!("total length {total} at {at}")
}
