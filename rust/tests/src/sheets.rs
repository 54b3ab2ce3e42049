//! Sheets that are accepted at a year, with what they were written from. One of
//! three is as other editors leave sheets, with old letters in its text fields.

use crate::heads::{head, SETTINGS};
use crate::numbers::Numbers;
use crate::tables::{small, table, Sizes};
use crate::tails;
use second::{Head, Table};
use sxf_sys::fields::passport::SUM;

/// A sheet, and what it was written from, but for old letters.
pub struct Made {
    /// No feature is later than this setting.
    pub year: u32,
    pub head: Head,
    pub table: Table,
    pub sheet: Vec<u8>,
}

/// A setting, one time in four the last, since it has all features.
pub fn setting(numbers: &mut Numbers) -> u32 {
    if numbers.chance(1, 4) {
        2017
    } else {
        numbers.pick(&SETTINGS)
    }
}

/// A sheet of a few records.
pub fn small_sheet(numbers: &mut Numbers, year: u32) -> Made {
    let sizes = small(numbers);
    sheet(numbers, year, sizes)
}

/// A sheet of these sizes.
pub fn sheet(numbers: &mut Numbers, year: u32, sizes: Sizes) -> Made {
    let head = head(numbers, year);
    let table = table(numbers, year, sizes);
    edited(numbers, year, head, table)
}

/// The sheet of a head and a table that are known to be right, in one of three
/// with old letters.
pub fn edited(numbers: &mut Numbers, year: u32, head: Head, table: Table) -> Made {
    let mut made = written(year, head, table);
    if numbers.chance(1, 3) {
        tails::leave(numbers, &mut made.sheet);
    }
    made
}

/// The same as it is written, with no old letters.
pub fn written(year: u32, head: Head, table: Table) -> Made {
    let sheet = match second::write(year, &head, &table, usize::MAX) {
        Ok(sheet) => sheet,
        Err(refusal) => panic!("what was made as a right table is refused: {refusal:?}"),
    };
    Made { year, head, table, sheet }
}

/// How many sums there are: "only its low 32 [bits] are kept" (document 02,
/// request 7).
pub const SUMS: u64 = 1 << 32;

/// The whole sum of the bytes of a sheet but for those of its own sum, before it
/// is cut to 32 bits.
pub fn whole_sum(sheet: &[u8]) -> u64 {
    let of = |bytes: &[u8]| bytes.iter().map(|&byte| u64::from(byte)).sum::<u64>();
    of(&sheet[..SUM.place]) + of(&sheet[SUM.after()..])
}

/// Whether the whole sum of a sheet takes more than 32 bits, as no sheet's does
/// that is too short for it.
pub fn passes_32_bits(sheet: &[u8]) -> bool {
    let most = 255 * sheet.len() as u64;
    most >= SUMS && whole_sum(sheet) >= SUMS
}

/// Puts the sum right, if the sheet is long enough to have one.
pub fn put_sum_right(sheet: &mut [u8]) {
    if sheet.len() >= SUM.after() {
        sheet[SUM.range()].fill(0);
        let sum = sheet.iter().fold(0u32, |sum, &byte| sum.wrapping_add(u32::from(byte)));
        sheet[SUM.range()].copy_from_slice(&sum.to_le_bytes());
    }
}
