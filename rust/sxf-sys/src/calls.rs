//! The calls and the structs that they answer, name for name and in the order of `include/sxf.h`, which says what each of them does. A test
//! holds this file against the header.
//!
//! Every answer but that of `sxf_visibility_of` starts with number, place and year: 0, 0 and 0 for success, else the refusal's, and then
//! every other field is 0.
#![allow(missing_docs)]

use crate::fields::{Carried, Rest};

/// `sxf_checked`: the low 32 bits of a sheet's sum, its count of records, and the lengths of the three parts of its record table.
#[repr(C)]
#[derive(Clone, Copy, Debug, Default, PartialEq, Eq)]
pub struct Checked {
    pub number: u64,
    pub place: u64,
    pub year: u64,
    pub sum: u64,
    pub records: u64,
    pub numbers: u64,
    pub elements: u64,
    pub bytes: u64,
}

/// `sxf_record`: where a record starts, its total length, the numbers of its row, and the points of its first part.
#[repr(C)]
#[derive(Clone, Copy, Debug, Default, PartialEq, Eq)]
pub struct Record {
    pub number: u64,
    pub place: u64,
    pub year: u64,
    pub at: u64,
    pub total: u64,
    pub code: u64,
    pub in_group: u64,
    pub group: u64,
    pub reference: u64,
    pub generalisation: u64,
    pub word: u64,
    pub parts: u64,
    pub items: u64,
    pub mark: u64,
    pub points: u64,
}

/// `sxf_head`: the lengths of the four texts, the scale's denominator, and for each text field 1 where its tail, which is what stands after its
/// first zero, has only zeros, else 0.
#[repr(C)]
#[derive(Clone, Copy, Debug, Default, PartialEq, Eq)]
pub struct Head {
    pub number: u64,
    pub place: u64,
    pub year: u64,
    pub date: u64,
    pub designation: u64,
    pub title: u64,
    pub designation2: u64,
    pub scale: u64,
    pub date_clean: u64,
    pub designation_clean: u64,
    pub title_clean: u64,
    pub designation2_clean: u64,
}

/// `sxf_unit`: one of [`units`](crate::units), and the byte at 236 where it names none.
#[repr(C)]
#[derive(Clone, Copy, Debug, Default, PartialEq, Eq)]
pub struct Unit {
    pub number: u64,
    pub place: u64,
    pub year: u64,
    pub unit: u64,
    pub byte: u64,
}

/// `sxf_coordinate`: an element's unit, one of [`units`](crate::units), and the byte that names none; its width in bytes; which of
/// [`kinds`](crate::kinds) it is; and the bits of the double that it stands for, or the stored ones of a NaN.
#[repr(C)]
#[derive(Clone, Copy, Debug, Default, PartialEq, Eq)]
pub struct Coordinate {
    pub number: u64,
    pub place: u64,
    pub year: u64,
    pub unit: u64,
    pub byte: u64,
    pub width: u64,
    pub kind: u64,
    pub bits: u64,
}

/// `sxf_corners`: the eight plane corners as stored bits, and the place of the first that is a NaN, or 0.
#[repr(C)]
#[derive(Clone, Copy, Debug, Default, PartialEq, Eq)]
pub struct Corners {
    pub number: u64,
    pub place: u64,
    pub year: u64,
    pub nan_at: u64,
    pub sw_x: u64,
    pub sw_y: u64,
    pub nw_x: u64,
    pub nw_y: u64,
    pub ne_x: u64,
    pub ne_y: u64,
    pub se_x: u64,
    pub se_y: u64,
}

/// `sxf_visibility`: the denominators of the two bounds; `set` is 0 where there are none.
#[repr(C)]
#[derive(Clone, Copy, Debug, Default, PartialEq, Eq)]
pub struct Visibility {
    pub set: u64,
    pub lower: u64,
    pub upper: u64,
}

/// `sxf_value`: which of [`kinds`](crate::kinds) it is; the bits of a double or of a NaN; whole times ten to the power for a decimal.
#[repr(C)]
#[derive(Clone, Copy, Debug, Default, PartialEq, Eq)]
pub struct Value {
    pub number: u64,
    pub place: u64,
    pub year: u64,
    pub kind: u64,
    pub bits: u64,
    pub whole: i64,
    pub power: i64,
}

/// `sxf_written`: how much of the output was written: bytes of a sheet, of a text or of a code index, 16-bit units, or 64-bit numbers, three an
/// entry or pick.
#[repr(C)]
#[derive(Clone, Copy, Debug, Default, PartialEq, Eq)]
pub struct Written {
    pub number: u64,
    pub place: u64,
    pub year: u64,
    pub length: u64,
}

/// `sxf_index`: the entries of a code index, and the blocks in which they stand.
#[repr(C)]
#[derive(Clone, Copy, Debug, Default, PartialEq, Eq)]
pub struct Index {
    pub number: u64,
    pub place: u64,
    pub year: u64,
    pub entries: u64,
    pub blocks: u64,
}

/// `sxf_hop`: 1 where there is a record of the code, else 0; its number, where it starts and its total length, 0 where there is none; and how
/// many headers were looked at.
#[repr(C)]
#[derive(Clone, Copy, Debug, Default, PartialEq, Eq)]
pub struct Hop {
    pub number: u64,
    pub place: u64,
    pub year: u64,
    pub found: u64,
    pub record: u64,
    pub at: u64,
    pub total: u64,
    pub looked: u64,
}

extern "C" {
    pub fn sxf_version() -> u32;

    pub fn sxf_check(sheet: *const u8, sheet_len: usize, year: u32) -> Checked;

    pub fn sxf_unfold(
        sheet: *const u8,
        sheet_len: usize,
        year: u32,
        table: *mut u64,
        table_len: usize,
        elements: *mut u64,
        elements_len: usize,
        bytes: *mut u8,
        bytes_len: usize,
    ) -> Checked;

    pub fn sxf_record_at(sheet: *const u8, sheet_len: usize, year: u32, record: u64) -> Record;

    pub fn sxf_head_of(sheet: *const u8, sheet_len: usize, year: u32) -> Head;

    pub fn sxf_unit_of(sheet: *const u8, sheet_len: usize, year: u32) -> Unit;

    pub fn sxf_coordinate_of(rest: *const Rest, reference: u32, dimension: u32, bits: u64) -> Coordinate;

    pub fn sxf_corners_of(sheet: *const u8, sheet_len: usize, year: u32) -> Corners;

    pub fn sxf_visibility_of(flags: u8, byte: u8) -> Visibility;

    pub fn sxf_value_of(kind: u8, scale: u8, bits: u64) -> Value;

    pub fn sxf_write(
        year: u32,
        date: *const u8,
        date_len: usize,
        designation: *const u8,
        designation_len: usize,
        scale: u32,
        title: *const u8,
        title_len: usize,
        rest: *const Rest,
        designation2: *const u8,
        designation2_len: usize,
        carried: *const Carried,
        table: *const u64,
        table_len: usize,
        elements: *const u64,
        elements_len: usize,
        bytes: *const u8,
        bytes_len: usize,
        out: *mut u8,
        out_len: usize,
    ) -> Written;

    pub fn sxf_to_utf16(coding: u32, text: *const u8, text_len: usize, units: *mut u16, units_len: usize) -> Written;

    pub fn sxf_from_utf16(coding: u32, units: *const u16, units_len: usize, text: *mut u8, text_len: usize) -> Written;

    pub fn sxf_index_build(sheet: *const u8, sheet_len: usize, year: u32, index: *mut u8, index_len: usize) -> Written;

    pub fn sxf_index_check(index: *const u8, index_len: usize) -> Index;

    pub fn sxf_index_read(index: *const u8, index_len: usize, entries: *mut u64, entries_len: usize) -> Written;

    pub fn sxf_index_select(index: *const u8, index_len: usize, code: u32, picks: *mut u64, picks_len: usize) -> Written;

    pub fn sxf_select(sheet: *const u8, sheet_len: usize, year: u32, code: u32, picks: *mut u64, picks_len: usize) -> Written;

    pub fn sxf_first_with(sheet: *const u8, sheet_len: usize, code: u32) -> Hop;

    pub fn sxf_frame_of(sheet: *const u8, sheet_len: usize) -> Hop;
}

#[cfg(test)]
mod tests {
    use super::*;
    use std::mem::{align_of, offset_of, size_of};

    /// Each field is eight bytes, in this order, with nothing between.
    macro_rules! laid_out {
        ($name:ident: $($field:ident)*) => {
            let mut place = 0;
            $(
                assert_eq!(offset_of!($name, $field), place, concat!(stringify!($name), "::", stringify!($field)));
                place += 8;
            )*
            assert_eq!((size_of::<$name>(), align_of::<$name>()), (place, 8), stringify!($name));
        };
    }

    #[test]
    fn answers_are_laid_out_as_c_holds_them() {
        laid_out!(Checked: number place year sum records numbers elements bytes);
        laid_out!(Record: number place year at total code in_group group reference generalisation word parts items mark points);
        laid_out!(
            Head: number place year date designation title designation2 scale
                date_clean designation_clean title_clean designation2_clean
        );
        laid_out!(Unit: number place year unit byte);
        laid_out!(Coordinate: number place year unit byte width kind bits);
        laid_out!(Corners: number place year nan_at sw_x sw_y nw_x nw_y ne_x ne_y se_x se_y);
        laid_out!(Visibility: set lower upper);
        laid_out!(Value: number place year kind bits whole power);
        laid_out!(Written: number place year length);
        laid_out!(Index: number place year entries blocks);
        laid_out!(Hop: number place year found record at total looked);
    }
}
