//! Numbers of up to four bytes where they are stored in a sheet.

use sxf_sys::fields::Field;

/// The number in a field; 0 past the sheet's end.
pub fn u32_in(sheet: &[u8], field: Field) -> u32 {
    sheet.get(field.range()).map_or(0, |bytes| bytes.iter().rev().fold(0, |number, &byte| number << 8 | u32::from(byte)))
}

/// Stores a number in a field of four bytes, which the sheet must have: a test
/// whose number went nowhere would pass for nothing.
pub fn put(sheet: &mut [u8], field: Field, number: u32) {
    sheet[field.range()].copy_from_slice(&number.to_le_bytes());
}

/// The same in a sheet that may be cut before the field, and then stays as it is.
pub fn put_if_there(sheet: &mut [u8], field: Field, number: u32) {
    if field.after() <= sheet.len() {
        put(sheet, field, number);
    }
}
