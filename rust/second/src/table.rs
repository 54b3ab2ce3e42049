//! The record table and its two pools ("The record table"). "The record row
//! gains a ninth number, mark 0 or 1" (document 02, request 2), after items.

use crate::record::{Listener, Record};
use crate::refusal::Refusal;
use crate::shape::Shape;

/// The contents of a sheet's records, unfolded.
#[derive(Clone, PartialEq, Eq, Debug, Default)]
pub struct Table {
    /// Per record nine numbers, then per part two, then per item four.
    pub numbers: Vec<u64>,
    /// The elements of all points as stored bits, in record order.
    pub elements: Vec<u64>,
    /// Texts without and values with their closing zeros, in record order.
    pub bytes: Vec<u8>,
}

/// Numbers of a record's row, of a part and of an item.
const ROW: usize = 9;
const PART: usize = 2;
const ITEM: usize = 4;

/// Where parts and items stand in a record's row.
const PARTS: usize = 6;
const ITEMS: usize = 7;

/// How long the three lists of a sheet's table will be, counted while the
/// sheet is read.
#[derive(Default)]
pub(crate) struct Counting {
    pub(crate) numbers: usize,
    pub(crate) elements: usize,
    pub(crate) bytes: usize,
}

impl Listener for Counting {
    fn header(&mut self, _record: &Record) {
        self.numbers += ROW;
    }

    fn part(&mut self, count: u64, _points: &[u8], shape: Shape, text: &[u8]) {
        self.numbers += PART;
        self.elements += (count * shape.point_elements()) as usize;
        self.bytes += text.len();
    }

    fn item(&mut self, _code: u16, _type_byte: u8, _scale: u8, value: &[u8]) {
        self.numbers += ITEM;
        self.bytes += value.len();
    }
}

/// A table that is filled while a sheet is read.
pub(crate) struct Unfolding {
    pub(crate) table: Table,
    /// The index of the last record's row.
    row: usize,
}

impl Unfolding {
    pub(crate) fn new(counted: &Counting) -> Unfolding {
        Unfolding {
            table: Table {
                numbers: Vec::with_capacity(counted.numbers),
                elements: Vec::with_capacity(counted.elements),
                bytes: Vec::with_capacity(counted.bytes),
            },
            row: 0,
        }
    }
}

impl Listener for Unfolding {
    fn header(&mut self, record: &Record) {
        self.row = self.table.numbers.len();
        self.table.numbers.extend_from_slice(&[
            record.code,
            record.in_group,
            record.group,
            record.reference,
            record.generalisation,
            record.word,
            record.parts,
            record.items,
            record.mark,
        ]);
    }

    fn part(&mut self, count: u64, points: &[u8], shape: Shape, text: &[u8]) {
        let numbers = [count, text.len() as u64];
        self.table.numbers.extend_from_slice(&numbers);
        shape.unfold(points, &mut self.table.elements);
        self.table.bytes.extend_from_slice(text);
    }

    fn item(&mut self, code: u16, type_byte: u8, scale: u8, value: &[u8]) {
        self.table.numbers.extend_from_slice(&[u64::from(code), u64::from(type_byte), u64::from(scale), value.len() as u64]);
        self.table.bytes.extend_from_slice(value);
    }

    fn record(&mut self, _number: u64, record: &Record) {
        // The items are counted only when all of them have been read.
        self.table.numbers[self.row + ITEMS] = record.items;
    }
}

/// The numbers of one record in a table.
pub(crate) struct Row<'a> {
    /// The index of the first.
    pub(crate) index: usize,
    /// Its nine numbers.
    pub(crate) numbers: &'a [u64; ROW],
    /// Two numbers a part.
    pub(crate) parts: &'a [u64],
    /// Four numbers an item.
    pub(crate) items: &'a [u64],
}

impl<'a> Row<'a> {
    /// The row at an index; TABLE there if numbers are missing.
    pub(crate) fn read(numbers: &'a [u64], index: usize) -> Result<Row<'a>, Refusal> {
        let missing = Refusal::new(Refusal::TABLE, index as u64);
        let (row, left) = numbers[index..].split_first_chunk().ok_or(missing)?;
        // The counts are any numbers below 2^64, so their sum may need more.
        let part_numbers = PART as u128 * u128::from(row[PARTS]);
        let item_numbers = ITEM as u128 * u128::from(row[ITEMS]);
        if part_numbers + item_numbers > left.len() as u128 {
            return Err(missing);
        }
        let (parts, left) = left.split_at(part_numbers as usize);
        Ok(Row { index, numbers: row, parts, items: &left[..item_numbers as usize] })
    }

    /// The index of the first part's points.
    pub(crate) fn parts_index(&self) -> usize {
        self.index + ROW
    }

    /// The index of the first item's code.
    pub(crate) fn items_index(&self) -> usize {
        self.parts_index() + self.parts.len()
    }

    /// The index after the last number.
    pub(crate) fn end(&self) -> usize {
        self.items_index() + self.items.len()
    }
}
