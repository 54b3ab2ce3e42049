//! The reading of whole sheets.

use crate::head::{read_head, Head, Opening, Tails, HEAD_BYTES};
use crate::record::{read_record, Listener, Record};
use crate::refusal::{require, Refusal};
use crate::table::{Counting, Table, Unfolding};
use crate::years::Setting;

/// What a sheet has, as far as it can be told without reading it all.
#[derive(Clone, Copy, PartialEq, Eq, Debug)]
pub struct Sizes {
    /// The sum at 12, which is the low 32 bits of the whole.
    pub sum: u64,
    /// The record count at 440.
    pub records: u64,
    /// How many numbers its table has.
    pub numbers: u64,
    /// How many elements its table has.
    pub elements: u64,
    /// How many bytes of texts and values its table has.
    pub bytes: u64,
}

/// All that a sheet says.
#[derive(Clone, PartialEq, Eq, Debug)]
pub struct Reading {
    /// The sum at 12, which is the low 32 bits of the whole.
    pub sum: u64,
    /// The record count at 440.
    pub records: u64,
    /// What stands before the records.
    pub head: Head,
    /// What stands behind the head's texts, which the head does not keep.
    pub tails: Tails,
    /// The records.
    pub table: Table,
}

/// Checks a sheet at a setting and tells its sizes, or gives the first of its
/// refusals.
pub fn check(sheet: &[u8], year: u32) -> Result<Sizes, Refusal> {
    let mut counted = Counting::default();
    let (_, opening) = read_sheet(sheet, year, &mut counted)?;
    Ok(Sizes {
        sum: u64::from(opening.sum),
        records: u64::from(opening.records),
        numbers: counted.numbers as u64,
        elements: counted.elements as u64,
        bytes: counted.bytes as u64,
    })
}

/// Reads a sheet at a setting, or gives the first of its refusals.
///
/// The records are gone through twice: the first time they are checked and
/// counted, so that the table is allocated once and at its right size.
pub fn read(sheet: &[u8], year: u32) -> Result<Reading, Refusal> {
    let mut counted = Counting::default();
    let (setting, opening) = read_sheet(sheet, year, &mut counted)?;
    let mut unfolding = Unfolding::new(&counted);
    read_records(sheet, setting, opening.records, &mut unfolding)?;
    let Opening { sum, records, head, tails } = opening;
    Ok(Reading { sum: u64::from(sum), records: u64::from(records), head, tails, table: unfolding.table })
}

/// Answers for the record with this number, from 0. The sheet's own refusals
/// come first, then ASK for a number not below the count.
pub fn record_at(sheet: &[u8], year: u32, number: u64) -> Result<Record, Refusal> {
    let mut wanted = Wanted { number, found: None };
    read_sheet(sheet, year, &mut wanted)?;
    wanted.found.ok_or(Refusal::new(Refusal::ASK, 0))
}

/// What stands before the records of a sheet, after the sheet's own refusals.
pub(crate) fn head_of(sheet: &[u8], year: u32) -> Result<Head, Refusal> {
    struct Nobody;
    impl Listener for Nobody {}
    Ok(read_sheet(sheet, year, &mut Nobody)?.1.head)
}

/// Keeps one record of those that are read.
struct Wanted {
    number: u64,
    found: Option<Record>,
}

impl Listener for Wanted {
    fn record(&mut self, number: u64, record: &Record) {
        if number == self.number {
            self.found = Some(*record);
        }
    }
}

/// Setting, head, each record, then LEFT OVER ("The refusals", order).
pub(crate) fn read_sheet<L: Listener>(sheet: &[u8], year: u32, listener: &mut L) -> Result<(Setting, Opening), Refusal> {
    let setting = Setting::new(year)?;
    let opening = read_head(sheet, setting)?;
    read_records(sheet, setting, opening.records, listener)?;
    Ok((setting, opening))
}

/// Each record, then LEFT OVER.
fn read_records<L: Listener>(sheet: &[u8], setting: Setting, records: u32, listener: &mut L) -> Result<(), Refusal> {
    let mut at = HEAD_BYTES;
    for number in 0..u64::from(records) {
        let record = read_record(sheet, at, setting, listener)?;
        listener.record(number, &record);
        // The record lies within the sheet.
        at += record.total as usize;
    }
    require(at == sheet.len(), Refusal::LEFT_OVER, at as u64)
}
