//! The first record with a wanted code, and the frame of the sheet, found
//! without reading the sheet.
//!
//! Document 02, request 5: "Give the first record with a wanted code by hopping
//! from header to header, stopping at the first hit or after the counted
//! records, with the number of headers looked at in the answer." There is no
//! setting: nothing that is looked at has a year.

use crate::bytes::u32_at;
use crate::head::{fixed, COUNT, DESCRIPTOR, DESCRIPTOR_IDENTIFIER, HEAD_BYTES, IDENTIFIER};
use crate::record::{HEADER_BYTES, RECORD_IDENTIFIER};
use crate::refusal::{require, Refusal};
use crate::LIMIT;

/// Where the passport has the frame's code.
const FRAME: usize = 348;

/// Where a header has the record's total length, and its class code.
const TOTAL: usize = 4;
const CODE: usize = 12;

/// What hopping came to.
#[derive(Clone, Copy, PartialEq, Eq, Debug)]
pub struct Hop {
    /// The first record with the code, where there is one.
    pub hit: Option<Hit>,
    /// How many headers were looked at: "the hit's number plus one, or the
    /// record count if there is none".
    pub looked: u64,
}

/// A record that has the code.
#[derive(Clone, Copy, PartialEq, Eq, Debug)]
pub struct Hit {
    /// Its number, from 0.
    pub record: u64,
    /// Its place in the sheet.
    pub at: u64,
    /// Its total length.
    pub total: u64,
}

/// The first record with this class code.
pub fn first_with(sheet: &[u8], code: u32) -> Result<Hop, Refusal> {
    let records = record_count(sheet)?;
    hop(sheet, records, code)
}

/// "The frame of the sheet is the record whose code equals passport +348."
pub fn frame_of(sheet: &[u8]) -> Result<Hop, Refusal> {
    let records = record_count(sheet)?;
    hop(sheet, records, u32_at(sheet, FRAME))
}

/// The record count of a sheet of a right size with right identifiers; the
/// rest of the head is not looked at.
fn record_count(sheet: &[u8]) -> Result<u32, Refusal> {
    require(sheet.len() <= LIMIT, Refusal::TOO_LONG, 0)?;
    require(sheet.len() >= HEAD_BYTES, Refusal::SHORT, 0)?;
    fixed(sheet, 0, IDENTIFIER, Refusal::NOT_SXF)?;
    fixed(sheet, DESCRIPTOR, DESCRIPTOR_IDENTIFIER, Refusal::NOT_SXF)?;
    Ok(u32_at(sheet, COUNT))
}

/// From header to header. A record has 32 bytes at least, so that a count of any
/// size soon comes to the sheet's end.
fn hop(sheet: &[u8], records: u32, code: u32) -> Result<Hop, Refusal> {
    let mut rest = &sheet[HEAD_BYTES..];
    for record in 0..u64::from(records) {
        let at = (sheet.len() - rest.len()) as u64;
        let (header, after) = split_record(rest, at)?;
        if u32_at(header, CODE) == code {
            let total = (rest.len() - after.len()) as u64;
            return Ok(Hop { hit: Some(Hit { record, at, total }), looked: record + 1 });
        }
        rest = after;
    }
    Ok(Hop { hit: None, looked: u64::from(records) })
}

/// The record's header, and what comes after the record, for the bytes from a
/// record's start at this place on. "Refusals: 1, 2, 3 and 10 as for sheet size,
/// identifiers and total lengths, header by header", in document 01's order:
/// "32 bytes left, identifier, lengths".
fn split_record(bytes: &[u8], at: u64) -> Result<(&[u8; HEADER_BYTES], &[u8]), Refusal> {
    let header = bytes.first_chunk().ok_or(Refusal::new(Refusal::SHORT, at))?;
    require(u32_at(header, 0) == RECORD_IDENTIFIER, Refusal::NOT_SXF, at)?;
    let (total, its_place) = (u32_at(header, TOTAL) as usize, at + TOTAL as u64);
    require(total >= HEADER_BYTES, Refusal::LENGTH, its_place)?;
    let after = bytes.get(total..).ok_or(Refusal::new(Refusal::SHORT, its_place))?;
    Ok((header, after))
}
