//! The writing of whole sheets ("The record table", on the writer).

use crate::bytes::{low_bytes, put_u32};
use crate::head::{Head, HEAD_BYTES};
use crate::item::{is_long_length, Kind};
use crate::record::{HEADER_BYTES, MARK, RECORD_IDENTIFIER};
use crate::reference::Reference;
use crate::refusal::{require, Refusal};
use crate::table::{Row, Table};
use crate::years::{self, Setting};
use crate::LIMIT;

/// Writes a sheet of a head and a table at a setting, if it takes no more
/// than `room` bytes, or gives the first refusal: setting, head by place in
/// the sheet, table by index, TOO LONG, ROOM.
pub fn write(year: u32, head: &Head, table: &Table, room: usize) -> Result<Vec<u8>, Refusal> {
    let setting = Setting::new(year)?;
    head.check(setting)?;
    let (mut sheet, records) = write_records(table, setting)?;
    require(sheet.len() <= LIMIT, Refusal::TOO_LONG, 0)?;
    require(sheet.len() <= room, Refusal::ROOM, 0)?;
    // Each record takes 32 bytes of a sheet within the limit.
    head.store(records as u32, &mut sheet);
    Ok(sheet)
}

/// The sheet with its first 452 bytes still zero, and the record count.
fn write_records(table: &Table, setting: Setting) -> Result<(Vec<u8>, u64), Refusal> {
    let mut writer = Writer { setting, sheet: vec![0; HEAD_BYTES], elements: &table.elements, bytes: &table.bytes };
    let mut records = 0;
    let mut index = 0;
    while index < table.numbers.len() {
        let row = Row::read(&table.numbers, index)?;
        writer.record(&row)?;
        records += 1;
        index = row.end();
    }
    let used_up = writer.elements.is_empty() && writer.bytes.is_empty();
    require(used_up, Refusal::TABLE, table.numbers.len() as u64)?;
    Ok((writer.sheet, records))
}

/// A sheet that grows by what has been checked, and what is left of the pools.
///
/// No length here overflows: everything written was in the table's memory
/// first, and took no less of it.
struct Writer<'a> {
    setting: Setting,
    sheet: Vec<u8>,
    elements: &'a [u64],
    bytes: &'a [u8],
}

/// What the parts of a record have in common.
struct Metric {
    reference: Reference,
    word: u64,
    marked: bool,
}

impl Writer<'_> {
    fn record(&mut self, row: &Row) -> Result<(), Refusal> {
        let start = self.sheet.len();
        let metric = self.header(row)?;
        let mut index = row.parts_index() as u64;
        for (part, numbers) in row.parts.chunks_exact(2).enumerate() {
            if part == 0 {
                self.first_count(numbers[0], &metric, index)?;
            } else {
                self.later_count(numbers[0], &metric, index)?;
            }
            self.points(numbers[0], metric.reference, index)?;
            self.part_text(numbers[1], metric.reference, index + 1)?;
            index += 2;
        }
        let metric_end = self.sheet.len();
        for numbers in row.items.chunks_exact(4) {
            self.item(numbers, index)?;
            index += 4;
        }
        // A record too long for these fields makes a sheet over the limit,
        // which is refused in the end.
        let total = self.sheet.len() - start;
        put_u32(&mut self.sheet, start + 4, total as u32);
        let metric_length = metric_end - start - HEADER_BYTES;
        put_u32(&mut self.sheet, start + 8, metric_length as u32);
        Ok(())
    }

    /// The nine numbers of a row. Those that the header has stand in its order,
    /// so each is added once it is checked; only the lengths are still zero,
    /// and the points at +30 are to follow.
    fn header(&mut self, row: &Row) -> Result<Metric, Refusal> {
        let index = row.index as u64;
        let [code, in_group, group, reference, generalisation, word, parts, items, mark] = *row.numbers;
        self.add(&RECORD_IDENTIFIER.to_le_bytes());
        self.add(&[0; 8]);
        self.field::<4>(code, index)?;
        self.field::<2>(in_group, index + 1)?;
        self.field::<2>(group, index + 2)?;
        self.field::<3>(reference, index + 3)?;
        let reference = Reference(low_bytes(reference));
        reference.check(self.setting, [index + 3; 3])?;
        self.field::<1>(generalisation, index + 4)?;
        self.field::<4>(word, index + 5)?;
        require(parts != 0, Refusal::TABLE, index + 6)?;
        self.field::<2>(parts - 1, index + 6)?;
        let flag_agrees = (items != 0) == reference.has_semantics();
        require(flag_agrees, Refusal::TABLE, index + 7)?;
        // "14 for a mark over 1", and "the writer's TOO NEW now stands at the
        // mark's number" (document 02, request 2).
        require(mark <= 1, Refusal::TABLE, index + 8)?;
        let marked = mark == 1;
        self.setting.admit(marked, years::MARK, index + 8)?;
        Ok(Metric { reference, word, marked })
    }

    /// The first part's count, or the mark in its stead, which ends the header.
    /// COUNT is given "for mark 0 with a first count of 65535 or more" and "for
    /// mark 1 with a word that differs from the first count" (document 02,
    /// request 2).
    fn first_count(&mut self, count: u64, metric: &Metric, index: u64) -> Result<(), Refusal> {
        require(count < 1 << 32, Refusal::TABLE, index)?;
        let agrees = if metric.marked { count == metric.word } else { count < MARK };
        require(agrees, Refusal::COUNT, index)?;
        self.field::<2>(if metric.marked { MARK } else { count }, index)
    }

    /// A later part's count, as N1 and N2. COUNT is given for mark 0 with "a
    /// later count over 65535" (document 02, request 2).
    fn later_count(&mut self, count: u64, metric: &Metric, index: u64) -> Result<(), Refusal> {
        require(count < 1 << 32, Refusal::TABLE, index)?;
        let agrees = metric.marked || count <= 65535;
        require(agrees, Refusal::COUNT, index)?;
        self.field::<2>(count / 65536, index)?;
        self.field::<2>(count % 65536, index)
    }

    /// The points of a part whose count fits 32 bits.
    fn points(&mut self, count: u64, reference: Reference, index: u64) -> Result<(), Refusal> {
        let shape = reference.shape();
        let elements = take(&mut self.elements, count * shape.point_elements(), index)?;
        require(shape.fits(elements), Refusal::TABLE, index)?;
        shape.fold(elements, &mut self.sheet);
        Ok(())
    }

    fn part_text(&mut self, length: u64, reference: Reference, index: u64) -> Result<(), Refusal> {
        if !reference.has_text() {
            return require(length == 0, Refusal::TABLE, index);
        }
        self.field::<1>(length, index)?;
        let text = take(&mut self.bytes, length, index)?;
        self.add(text);
        self.add(&[0]);
        Ok(())
    }

    /// The four numbers of an item, the first of which is at `index`.
    fn item(&mut self, numbers: &[u64], index: u64) -> Result<(), Refusal> {
        self.field::<2>(numbers[0], index)?;
        self.field::<1>(numbers[1], index + 1)?;
        let kind = Kind::of(numbers[1] as u8).ok_or(Refusal::new(Refusal::SEMANTIC, index + 1))?;
        let long = kind == Kind::LongText;
        self.setting.admit(long, years::TYPE_128, index + 1)?;
        self.field::<1>(numbers[2], index + 2)?;
        let scale = numbers[2] as u8;
        require(kind.allows_scale(scale), Refusal::SEMANTIC, index + 2)?;
        self.value(numbers[3], kind, scale, index + 3)
    }

    fn value(&mut self, length: u64, kind: Kind, scale: u8, index: u64) -> Result<(), Refusal> {
        match kind.value_length(scale) {
            Some(due) => require(length == due, Refusal::TABLE, index)?,
            None => {
                self.field::<4>(length, index)?;
                require(is_long_length(length), Refusal::SEMANTIC, index)?;
            }
        }
        let value = take(&mut self.bytes, length, index)?;
        require(kind.is_closed(value), Refusal::TEXT, index)?;
        self.add(value);
        Ok(())
    }

    /// Adds a number in `WIDTH` bytes; TABLE if it is too large for them.
    fn field<const WIDTH: usize>(&mut self, number: u64, index: u64) -> Result<(), Refusal> {
        require(number >> (8 * WIDTH) == 0, Refusal::TABLE, index)?;
        self.add(&low_bytes::<WIDTH>(number));
        Ok(())
    }

    fn add(&mut self, bytes: &[u8]) {
        self.sheet.extend_from_slice(bytes);
    }
}

/// The next `count` of a pool, which are then behind; TABLE if it ends early.
fn take<'a, T>(pool: &mut &'a [T], count: u64, index: u64) -> Result<&'a [T], Refusal> {
    require(count <= pool.len() as u64, Refusal::TABLE, index)?;
    let (taken, left) = pool.split_at(count as usize);
    *pool = left;
    Ok(taken)
}
