//! Record tables that may be written for a year.

use crate::heads::uses;
use crate::numbers::Numbers;
use second::Table;
use sxf_sys::reference as bits;
use sxf_sys::row::{self, ITEMS, ITEM_WIDTH, PART_WIDTH};
use sxf_sys::{years, MARK};

/// How large the records of a table are.
#[derive(Clone, Copy)]
pub struct Sizes {
    pub records: u64,
    pub parts: u64,
    pub points: u64,
    pub items: u64,
}

/// Sheets of a few hundred bytes.
pub fn small(numbers: &mut Numbers) -> Sizes {
    Sizes { records: numbers.mostly(4, 9), parts: 3, points: 5, items: 4 }
}

/// The widths of a record's elements in bytes: planar, and of a height.
#[derive(Clone, Copy)]
pub struct Widths {
    pub planar: u32,
    pub height: u32,
}

/// What the widths are for a reference number.
pub fn widths(reference: u64) -> Widths {
    let has = |bit: u64| u32::from(reference & bit != 0);
    let planar = 2 << (has(bits::ELEMENT_SIZE) + has(bits::FLOATING));
    Widths { planar, height: has(bits::THREE_DIMENSIONS) * planar.max(4) }
}

impl Widths {
    pub fn point(self) -> usize {
        (2 * self.planar + self.height) as usize
    }

    pub fn elements(self) -> u64 {
        2 + u64::from(self.height != 0)
    }
}

/// Whether each part of a record with this reference ends with a text.
pub fn has_text(reference: u64) -> bool {
    reference & bits::TEXT_IN_METRIC != 0
}

/// A table with no feature later than the year.
pub fn table(numbers: &mut Numbers, year: u32, sizes: Sizes) -> Table {
    let mut table = Table::default();
    for _ in 0..sizes.records {
        let parts = 1 + numbers.below(sizes.parts);
        let points = (0..parts).map(|_| numbers.mostly(sizes.points, 4 * sizes.points)).collect::<Vec<_>>();
        let items = numbers.below(1 + sizes.items);
        let reference = reference(numbers, year, items != 0);
        if has_mark(numbers, year) {
            marked_record(&mut table, numbers, reference, &points);
        } else {
            let word = numbers.of_bits(32);
            record(&mut table, numbers, reference, word, &points);
        }
        for _ in 0..items {
            item(&mut table, numbers, year);
        }
    }
    table
}

/// Whether a record that is made for `year` has the mark, needed or not: about
/// one record of seven.
fn has_mark(numbers: &mut Numbers, year: u32) -> bool {
    years::MARK_65535 <= year && numbers.chance(1, 7)
}

/// The spline is bits 6 and 7 of byte 22, and each is drawn by itself.
pub const SPLINE_BIT_6: u64 = 1 << 22;
pub const SPLINE_BIT_7: u64 = 1 << 23;

/// A reference number with no feature later than the year.
pub fn reference(numbers: &mut Numbers, year: u32, semantics: bool) -> u64 {
    let localisation = numbers.below(6);
    let mut reference = localisation;
    let mut set = |bit: u64, on: bool| reference |= if on { bit } else { 0 };
    set(bits::MULTIPOLYGON, uses(numbers, years::MULTIPOLYGON, year));
    set(bits::COMPRESSED_GRAPHICS, uses(numbers, years::COMPRESSED_GRAPHICS, year));
    set(bits::SEMANTICS, semantics);
    set(bits::ELEMENT_SIZE, numbers.chance(1, 2));
    set(bits::UNICODE, uses(numbers, years::UNICODE, year));
    set(bits::ABOVE_ALL, uses(numbers, years::ABOVE_ALL, year));
    set(bits::BELOW_ALL, uses(numbers, years::BELOW_ALL, year));
    set(bits::VERTICAL_ALIGNMENT, uses(numbers, years::VERTICAL_ALIGNMENT, year));
    set(bits::THREE_DIMENSIONS, numbers.chance(1, 2));
    set(bits::FLOATING, numbers.chance(1, 2));
    set(bits::TEXT_IN_METRIC, matches!(localisation, 3 | 5) && numbers.chance(2, 3));
    set(bits::SCALABLE, numbers.chance(1, 4));
    set(SPLINE_BIT_6, uses(numbers, years::SPLINE_BITS, year));
    set(SPLINE_BIT_7, uses(numbers, years::SPLINE_BITS, year));
    reference
}

/// Adds a record's row and its parts with these counts of points; items are
/// to follow. It has the mark only where a count needs it, and then the word is
/// the first count.
pub fn record(table: &mut Table, numbers: &mut Numbers, reference: u64, word: u64, points: &[u64]) {
    if needs_mark(points) {
        marked_record(table, numbers, reference, points);
    } else {
        with_parts(table, numbers, row::Record { reference, word, ..row::Record::default() }, points);
    }
}

/// Adds the same under the mark, whatever the counts are.
pub fn marked_record(table: &mut Table, numbers: &mut Numbers, reference: u64, points: &[u64]) {
    with_parts(table, numbers, row::Record { reference, word: points[0], mark: 1, ..row::Record::default() }, points);
}

/// Whether a count needs the mark: "a first count over 65534 needs mark 1", and
/// so does "a later count over 65535" (document 02, request 2).
fn needs_mark(points: &[u64]) -> bool {
    points[0] >= MARK || points[1..].iter().any(|&count| count > MARK)
}

/// Adds a row with this record's reference, word and mark, and its parts.
fn with_parts(table: &mut Table, numbers: &mut Numbers, record: row::Record, points: &[u64]) {
    let row = row::Record {
        code: numbers.of_bits(32),
        in_group: numbers.of_bits(16),
        group: numbers.of_bits(16),
        generalisation: numbers.of_bits(8),
        parts: points.len() as u64,
        ..record
    };
    table.numbers.extend(row.numbers());
    for &count in points {
        part(table, numbers, record.reference, count);
    }
}

fn part(table: &mut Table, numbers: &mut Numbers, reference: u64, count: u64) {
    let widths = widths(reference);
    let edges = numbers.chance(1, 4);
    let mut element = |numbers: &mut Numbers, width: u32| {
        let bits = 8 * width;
        table.elements.push(if edges { numbers.of_bits(bits) } else { numbers.any() >> (64 - bits) });
    };
    for _ in 0..count {
        element(numbers, widths.planar);
        element(numbers, widths.planar);
        if widths.height != 0 {
            element(numbers, widths.height);
        }
    }
    let length = match numbers.below(16) {
        _ if !has_text(reference) => 0,
        0 => 255,
        1 => numbers.below(256),
        _ => numbers.below(12),
    };
    table.numbers.extend(row::Part { points: count, text_length: length }.numbers());
    let text = bytes(numbers, length);
    table.bytes.extend_from_slice(&text);
}

/// The numbers of one record in a table.
pub struct Row<'a> {
    /// The index of the first of them.
    pub index: usize,
    pub record: row::Record,
    pub parts: &'a [[u64; PART_WIDTH]],
    pub items: &'a [[u64; ITEM_WIDTH]],
}

/// The rows of a table whose counts of parts and items are right.
pub fn rows(table: &Table) -> impl Iterator<Item = Row<'_>> {
    let mut index = 0;
    std::iter::from_fn(move || {
        let (record, after) = table.numbers[index..].split_first_chunk()?;
        let record = row::Record::of(record);
        let (parts, after) = after.split_at(PART_WIDTH * record.parts as usize);
        let items = &after[..ITEM_WIDTH * record.items as usize];
        let row = Row { index, record, parts: parts.as_chunks().0, items: items.as_chunks().0 };
        index += row::row_size(row.parts.len(), row.items.len());
        Some(row)
    })
}

/// Adds an item of any type to the last record.
pub fn item(table: &mut Table, numbers: &mut Numbers, year: u32) {
    let types: &[u64] = if year >= years::TYPE_128 { &[0, 126, 127, 1, 2, 4, 8, 128, 128] } else { &[0, 126, 127, 1, 2, 4, 8] };
    let kind = numbers.pick(types);
    let any = numbers.below(256);
    let few = numbers.mostly(9, 255);
    let (scale, length) = match kind {
        0 | 126 => (few, few + 1),
        127 => (few, 2 * (few + 1)),
        1 | 2 | 4 if any == 0x80 => (0x7F, kind),
        1 | 2 | 4 => (any, kind),
        8 => (any, 8),
        _ => (0xFF, 2 * (1 + numbers.mostly(8, 300))),
    };
    item_of(table, numbers, kind, scale, length);
}

/// Adds this item to the last record, its value closed as its type asks.
pub fn item_of(table: &mut Table, numbers: &mut Numbers, kind: u64, scale: u64, length: u64) {
    let last = rows(table).last().map_or(0, |row| row.index);
    table.numbers[last + ITEMS] += 1;
    let code = numbers.of_bits(16);
    table.numbers.extend(row::Item { code, kind, scale, length }.numbers());
    let mut value = bytes(numbers, length);
    let zeros = closing_zeros(kind);
    let text = value.len() - zeros;
    value[text..].fill(0);
    table.bytes.extend_from_slice(&value);
}

/// How many zeros close a value of this type.
pub fn closing_zeros(kind: u64) -> usize {
    match kind {
        0 | 126 => 1,
        127 | 128 => 2,
        _ => 0,
    }
}

/// So many bytes: any, printable, or zero.
fn bytes(numbers: &mut Numbers, length: u64) -> Vec<u8> {
    let mut bytes = numbers.bytes(length as usize);
    let mask = numbers.pick(&[0xFF, 0xFF, 0x3F, 0x01, 0x00]);
    bytes.iter_mut().for_each(|byte| *byte &= mask);
    bytes
}

#[cfg(test)]
mod tests {
    use super::*;
    use crate::sheets::setting;

    #[test]
    fn about_one_record_of_seven_has_the_mark() {
        let (mut records, mut marked) = (0, 0);
        for case in 0..10_000 {
            let numbers = &mut Numbers::of_case(1, 0, case);
            let (year, sizes) = (setting(numbers), small(numbers));
            for row in rows(&table(numbers, year, sizes)) {
                records += 1;
                marked += row.record.mark;
            }
        }
        assert!((6..9).contains(&(records / marked)), "{marked} of {records}");
    }
}
