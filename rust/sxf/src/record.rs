//! Records of a sheet.
use crate::item::Items;
use crate::part::Parts;
use crate::refusal::{low16, low32, low8};
use crate::table::{Row, Rows};
use crate::{Coding, Reference, Visibility};
use sxf_sys::fields::{header, START};
use sxf_sys::{row, Rest};

/// One record, as the library answers it when asked by number.
#[derive(Clone, Copy, Debug, PartialEq, Eq)]
pub struct RecordAt {
    /// Where it starts in the sheet.
    pub place: usize,
    /// Its total length.
    pub total: usize,
    /// Its class code.
    pub code: u32,
    /// Its number in its group.
    pub in_group: u16,
    /// Its group's number.
    pub group: u16,
    /// Its reference bytes.
    pub reference: Reference,
    /// Its generalisation byte.
    pub generalisation: u8,
    /// The word at +24.
    pub word: u32,
    /// How many parts it has: one more than its subobjects.
    pub parts: u32,
    /// How many items it has.
    pub items: usize,
    /// Whether it has the mark: the points at +30 are 65535, and the word at +24 is its first part's points.
    pub mark: bool,
    /// How many points its first part has.
    pub points: u32,
}

impl RecordAt {
    pub(crate) fn of(answer: &sxf_sys::Record) -> RecordAt {
        RecordAt {
            place: answer.at as usize,
            total: answer.total as usize,
            code: low32(answer.code),
            in_group: low16(answer.in_group),
            group: low16(answer.group),
            reference: Reference(low32(answer.reference)),
            generalisation: low8(answer.generalisation),
            word: low32(answer.word),
            parts: low32(answer.parts),
            items: answer.items as usize,
            mark: answer.mark != 0,
            points: low32(answer.points),
        }
    }
}

/// What of a sheet's head its records need.
#[derive(Clone, Copy, Debug)]
pub(crate) struct Common<'a> {
    pub rest: &'a Rest,
    pub flags: u8,
    pub labels: Coding,
}

/// A record of a sheet.
#[derive(Clone, Copy, Debug)]
pub struct Record<'a> {
    number: usize,
    place: usize,
    total: usize,
    common: Common<'a>,
    row: Row<'a>,
}

impl<'a> Record<'a> {
    /// Its number in the sheet, from 0.
    pub fn number(&self) -> usize {
        self.number
    }

    /// Where it starts in the sheet.
    pub fn place(&self) -> usize {
        self.place
    }

    /// Its total length.
    pub fn total(&self) -> usize {
        self.total
    }

    /// Its row of the record table.
    pub fn row(&self) -> Row<'a> {
        self.row
    }

    /// Its class code.
    pub fn code(&self) -> u32 {
        low32(self.row.numbers[row::CODE])
    }

    /// Its number in its group.
    pub fn in_group(&self) -> u16 {
        low16(self.row.numbers[row::IN_GROUP])
    }

    /// Its group's number.
    pub fn group(&self) -> u16 {
        low16(self.row.numbers[row::GROUP])
    }

    /// Its reference bytes.
    pub fn reference(&self) -> Reference {
        self.row.reference()
    }

    /// Its generalisation byte.
    pub fn generalisation(&self) -> u8 {
        low8(self.row.numbers[row::GENERALISATION])
    }

    /// The scales between which it is shown.
    pub fn visibility(&self) -> Visibility {
        Visibility::of(self.common.flags, self.generalisation())
    }

    /// The word at +24: the first part's points under the mark, else carried unread.
    pub fn word(&self) -> u32 {
        low32(self.row.numbers[row::WORD])
    }

    /// Whether it has the mark: the points at +30 are 65535, and the word at +24 is the first part's points, however few they are. A later part
    /// of more than 65535 points needs it.
    pub fn mark(&self) -> bool {
        self.row.numbers[row::MARK] != 0
    }

    /// How many points the first part has.
    pub fn first_points(&self) -> u64 {
        self.row.parts.first().map_or(0, |part| part[row::POINTS])
    }

    /// Its parts: the object itself, then its subobjects.
    pub fn parts(&self) -> Parts<'a> {
        Parts::of(&self.row, self.common.rest, self.common.labels)
    }

    /// Its semantic items.
    pub fn items(&self) -> Items<'a> {
        Items::of(&self.row)
    }
}

/// The records of a sheet, in order.
#[derive(Clone, Copy, Debug)]
pub struct Records<'a> {
    sheet: &'a [u8],
    common: Common<'a>,
    rows: Rows<'a>,
    number: usize,
    place: usize,
}

impl<'a> Records<'a> {
    pub(crate) fn of(sheet: &'a [u8], common: Common<'a>, rows: Rows<'a>) -> Records<'a> {
        Records { sheet, common, rows, number: 0, place: START }
    }

    /// The record of a number, from 0, if it is none of those that were passed already.
    pub(crate) fn go_to(&mut self, number: usize) -> Option<Record<'a>> {
        self.nth(number.checked_sub(self.number)?)
    }
}

impl<'a> Iterator for Records<'a> {
    type Item = Record<'a>;

    /// A record starts where the one before it ends, and its total length stands at +4. To ask the library for each would check the whole
    /// sheet each time.
    fn next(&mut self) -> Option<Record<'a>> {
        let mut rows = self.rows;
        let row = rows.next()?;
        let total = self.sheet.get(header::TOTAL.at(self.place).range())?.first_chunk()?;
        let total = u32::from_le_bytes(*total) as usize;
        let record = Record { number: self.number, place: self.place, total, common: self.common, row };
        *self = Records { rows, number: self.number + 1, place: self.place.checked_add(total)?, ..*self };
        Some(record)
    }
}
