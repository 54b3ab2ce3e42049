//! The calls for slices that are lent. Each function lends what its declaration in [`calls`](crate::calls) says and nothing more, so that all
//! of them are safe to call.
use crate::calls::*;
use crate::fields::{Carried, Rest};
use crate::refusals;
use crate::VERSION;

/// The version that the archive has. An archive of rows of eight numbers does not have the call, so that linking with it fails.
pub fn version() -> u32 {
    // SAFETY: it takes nothing.
    unsafe { sxf_version() }
}

/// Sees to it that the archive has the record table, the structs and the blocks of an index that this crate declares: with others each record would be
/// misread, a longer answer written past the room for it, or an index of another kind built.
fn of_this_version() {
    assert_eq!(version(), VERSION, "libsxf.a is of another version than sxf-sys: run `rt lib` in crates/sxf again");
}

/// Checks a sheet.
pub fn check(sheet: &[u8], year: u32) -> Checked {
    // SAFETY: the pointer and the length are one slice's, lent for the call, which only reads it.
    unsafe { sxf_check(sheet.as_ptr(), sheet.len(), year) }
}

/// Checks a sheet and unfolds its record table into three slices.
pub fn unfold(sheet: &[u8], year: u32, table: &mut [u64], elements: &mut [u64], bytes: &mut [u8]) -> Checked {
    of_this_version();
    let (t, e, b) = (table.len(), elements.len(), bytes.len());
    // SAFETY: each pointer and length are one slice's, lent for the call; the three it writes are borrowed mutably, so that no two of the
    // four overlap, and it writes within the lengths given.
    unsafe { sxf_unfold(sheet.as_ptr(), sheet.len(), year, table.as_mut_ptr(), t, elements.as_mut_ptr(), e, bytes.as_mut_ptr(), b) }
}

/// A record table in memory of its own: its numbers, elements and bytes.
pub type Unfolded = (Vec<u64>, Vec<u64>, Vec<u8>);

/// Unfolds into new vectors of exactly these lengths. Their memory is asked for and not filled first, since the archive writes all of it.
/// They are empty unless the answer is success and states these lengths.
pub fn unfold_new(sheet: &[u8], year: u32, lengths: [usize; 3]) -> (Checked, Unfolded) {
    of_this_version();
    let [n, e, b] = lengths;
    let (mut numbers, mut elements, mut bytes) = (Vec::with_capacity(n), Vec::with_capacity(e), Vec::with_capacity(b));
    // SAFETY: the sheet is a slice, lent for the call, which only reads it. Each of the three has room for as many as are lent of it, is not
    // null and overlaps nothing else. What is lent there is not initialised: the archive's code only stores to it and never reads it, and by
    // its contract (docs/PROMISES.md) what it leaves there does not depend on what was there before.
    let answer = unsafe {
        sxf_unfold(sheet.as_ptr(), sheet.len(), year, numbers.as_mut_ptr(), n, elements.as_mut_ptr(), e, bytes.as_mut_ptr(), b)
    };
    let stated = [answer.numbers, answer.elements, answer.bytes];
    if answer.number == refusals::OK && stated == lengths.map(|length| length as u64) {
        // SAFETY: each length is within the capacity asked for above, and all of it was written: by the same contract success writes the
        // whole of the lengths that it states, which are these. A refusal writes nothing, and does not come here.
        unsafe {
            numbers.set_len(n);
            elements.set_len(e);
            bytes.set_len(b);
        }
    }
    (answer, (numbers, elements, bytes))
}

/// The record of a number, from 0.
pub fn record_at(sheet: &[u8], year: u32, record: u64) -> Record {
    of_this_version();
    // SAFETY: as `check`.
    unsafe { sxf_record_at(sheet.as_ptr(), sheet.len(), year, record) }
}

/// The lengths of the head's texts, the scale, and which tails of text fields are clean.
pub fn head_of(sheet: &[u8], year: u32) -> Head {
    of_this_version();
    // SAFETY: as `check`.
    unsafe { sxf_head_of(sheet.as_ptr(), sheet.len(), year) }
}

/// The unit of a sheet's coordinates.
pub fn unit_of(sheet: &[u8], year: u32) -> Unit {
    // SAFETY: as `check`.
    unsafe { sxf_unit_of(sheet.as_ptr(), sheet.len(), year) }
}

/// What an element of a point stands for, in its unit. The rest is the sheet's own, where its units stand; the dimension is one of
/// [`dimensions`](crate::dimensions).
pub fn coordinate_of(rest: &Rest, reference: u32, dimension: u32, bits: u64) -> Coordinate {
    // SAFETY: the array has the length declared, and is lent for the call, which only reads it; every number has an answer.
    unsafe { sxf_coordinate_of(rest, reference, dimension, bits) }
}

/// The eight plane corners.
pub fn corners_of(sheet: &[u8], year: u32) -> Corners {
    // SAFETY: as `check`.
    unsafe { sxf_corners_of(sheet.as_ptr(), sheet.len(), year) }
}

/// What a generalisation byte says under the sheet's byte at 96.
pub fn visibility_of(flags: u8, byte: u8) -> Visibility {
    // SAFETY: it takes numbers alone, and every number has an answer.
    unsafe { sxf_visibility_of(flags, byte) }
}

/// The number of an item of this type and scale byte, whose value is these bits.
pub fn value_of(kind: u8, scale: u8, bits: u64) -> Value {
    // SAFETY: it takes numbers alone, and every number has an answer.
    unsafe { sxf_value_of(kind, scale, bits) }
}

/// What a sheet is written from: its head, then its record table with the two pools.
#[allow(missing_docs)]
#[derive(Clone, Copy, Debug)]
pub struct Contents<'a> {
    pub date: &'a [u8],
    pub designation: &'a [u8],
    pub scale: u32,
    pub title: &'a [u8],
    pub rest: &'a Rest,
    pub designation2: &'a [u8],
    pub carried: &'a Carried,
    pub table: &'a [u64],
    pub elements: &'a [u64],
    pub bytes: &'a [u8],
}

/// Writes a sheet into a slice.
pub fn write(year: u32, from: &Contents<'_>, out: &mut [u8]) -> Written {
    of_this_version();
    // SAFETY: each pointer and length are one slice's, and the two arrays have the lengths declared, all lent for the call; the output is
    // borrowed mutably, so that it overlaps none of them, and the call writes within its length.
    unsafe {
        sxf_write(
            year,
            from.date.as_ptr(),
            from.date.len(),
            from.designation.as_ptr(),
            from.designation.len(),
            from.scale,
            from.title.as_ptr(),
            from.title.len(),
            from.rest,
            from.designation2.as_ptr(),
            from.designation2.len(),
            from.carried,
            from.table.as_ptr(),
            from.table.len(),
            from.elements.as_ptr(),
            from.elements.len(),
            from.bytes.as_ptr(),
            from.bytes.len(),
            out.as_mut_ptr(),
            out.len(),
        )
    }
}

/// Turns text of a coding, one of [`codings`](crate::codings), into UTF-16, one unit a byte.
pub fn to_utf16(coding: u32, text: &[u8], units: &mut [u16]) -> Written {
    // SAFETY: each pointer and length are one slice's, lent for the call; the output is borrowed mutably, so that the two do not overlap, and
    // the call writes within its length.
    unsafe { sxf_to_utf16(coding, text.as_ptr(), text.len(), units.as_mut_ptr(), units.len()) }
}

/// Turns UTF-16 into text of a coding, one of [`codings`](crate::codings), one byte a unit.
pub fn from_utf16(coding: u32, units: &[u16], text: &mut [u8]) -> Written {
    // SAFETY: as `to_utf16`.
    unsafe { sxf_from_utf16(coding, units.as_ptr(), units.len(), text.as_mut_ptr(), text.len()) }
}

/// Builds the code index of a sheet, whose length is [`index_length`](crate::index::index_length) of its records.
pub fn index_build(sheet: &[u8], year: u32, index: &mut [u8]) -> Written {
    of_this_version();
    // SAFETY: as `to_utf16`.
    unsafe { sxf_index_build(sheet.as_ptr(), sheet.len(), year, index.as_mut_ptr(), index.len()) }
}

/// Checks a code index, of either kind.
pub fn index_check(index: &[u8]) -> Index {
    // SAFETY: as `check`.
    unsafe { sxf_index_check(index.as_ptr(), index.len()) }
}

/// Reads the entries of a code index, three numbers each.
pub fn index_read(index: &[u8], entries: &mut [u64]) -> Written {
    // SAFETY: as `to_utf16`.
    unsafe { sxf_index_read(index.as_ptr(), index.len(), entries.as_mut_ptr(), entries.len()) }
}

/// Selects the records of a class code by a code index, three numbers each.
pub fn index_select(index: &[u8], code: u32, picks: &mut [u64]) -> Written {
    // SAFETY: as `to_utf16`.
    unsafe { sxf_index_select(index.as_ptr(), index.len(), code, picks.as_mut_ptr(), picks.len()) }
}

/// Selects the records of a class code from a sheet, three numbers each.
pub fn select(sheet: &[u8], year: u32, code: u32, picks: &mut [u64]) -> Written {
    // SAFETY: as `to_utf16`.
    unsafe { sxf_select(sheet.as_ptr(), sheet.len(), year, code, picks.as_mut_ptr(), picks.len()) }
}

/// The first record with a class code, from header to header. The sheet is not checked.
pub fn first_with(sheet: &[u8], code: u32) -> Hop {
    // SAFETY: as `check`.
    unsafe { sxf_first_with(sheet.as_ptr(), sheet.len(), code) }
}

/// The sheet's frame, from header to header: the first record with the class code that the passport has at 348. The sheet is not checked.
pub fn frame_of(sheet: &[u8]) -> Hop {
    // SAFETY: as `check`.
    unsafe { sxf_frame_of(sheet.as_ptr(), sheet.len()) }
}

#[cfg(test)]
mod tests {
    use super::*;
    use crate::codings::{DOS, KOI8, WINDOWS};
    use crate::dimensions::{HEIGHT, NORTH};
    use crate::fields::passport::{in_rest, FLAGS, HEIGHT_UNIT, REST};
    use crate::index::{BLOCK_SIZE, ENTRY_WIDTH, PICK_WIDTH};
    use crate::refusals::{ASK, BAD_BLOCK, NO_CHARACTER, OK, ROOM, SEMANTIC, SHORT, TABLE, TEXT};
    use crate::{kinds, row, units};

    #[test]
    fn document_01s_visibility_and_example_1() {
        assert_eq!(visibility_of(3, 0x24), Visibility { set: 1, lower: 10_000, upper: 10_000_000 });
        assert_eq!(visibility_of(3, 0xFF), Visibility::default());
        assert_eq!(value_of(2, 0xFF, 0x04F9), Value { kind: kinds::DECIMAL, whole: 1273, power: -1, ..Value::default() });
        assert_eq!(value_of(2, 0x80, 0).number, SEMANTIC);
        let (double, nan) = (0x3FF0_0000_0000_0000, 0x7FF0_0000_0000_0001);
        assert_eq!(value_of(8, 0x80, double), Value { kind: kinds::DOUBLE, bits: double, ..Value::default() });
        assert_eq!(value_of(8, 0, nan), Value { kind: kinds::NAN, bits: nan, ..Value::default() });
        assert_eq!(value_of(126, 0, double), Value::default());
    }

    #[test]
    fn elements_are_told_in_the_units_of_the_rest() {
        let mut rest = [0; REST.width];
        rest[in_rest(FLAGS).place] = 0x1B;
        rest[in_rest(HEIGHT_UNIT).place] = 9;
        let (long, high) = (1 << 10, 1 << 17);
        let due =
            Coordinate { unit: units::METRES, width: 4, kind: kinds::WHOLE, bits: (-1f64).to_bits(), ..Coordinate::default() };
        assert_eq!(coordinate_of(&rest, long, NORTH, 0xFFFF_FFFF), due);
        let due = Coordinate {
            unit: units::UNKNOWN_UNIT,
            byte: 9,
            width: 4,
            kind: kinds::SINGLE,
            bits: 1f64.to_bits(),
            ..Coordinate::default()
        };
        assert_eq!(coordinate_of(&rest, high, HEIGHT, 0x3F80_0000), due);
        let refused = |number, place| Coordinate { number, place, ..Coordinate::default() };
        assert_eq!(coordinate_of(&rest, long, HEIGHT, 0), refused(ASK, 0));
        assert_eq!(coordinate_of(&rest, 0, NORTH, 0x1_0000), refused(TABLE, 0));
        assert_eq!(coordinate_of(&rest, 1 << 24, NORTH, 0), refused(TABLE, row::REFERENCE as u64));
    }

    #[test]
    fn empty_slices_are_lent() {
        assert_eq!(check(&[], 2017).number, SHORT);
        assert_eq!(unfold(&[], 2017, &mut [], &mut [], &mut []).number, SHORT);
        assert_eq!(unfold_new(&[], 2017, [0; 3]).0.number, SHORT);
        assert_eq!((to_utf16(DOS, &[], &mut []), from_utf16(DOS, &[], &mut [])), (Written::default(), Written::default()));
        assert_eq!((first_with(&[], 0).number, frame_of(&[]).number), (SHORT, SHORT));
    }

    /// «Газ» in the three codings, and in UTF-16.
    const GAS: [(u32, [u8; 3]); 3] = [(DOS, [0x83, 0xA0, 0xA7]), (WINDOWS, [0xC3, 0xE0, 0xE7]), (KOI8, [0xE7, 0xC1, 0xDA])];
    const GAS_UNITS: [u16; 3] = [0x0413, 0x0430, 0x0437];

    #[test]
    fn texts_are_turned_there_and_back() {
        for (coding, text) in GAS {
            let (mut units, mut back) = ([9; 4], [9; 4]);
            assert_eq!(to_utf16(coding, &text, &mut units), Written { length: 3, ..Written::default() });
            assert_eq!(units, [GAS_UNITS[0], GAS_UNITS[1], GAS_UNITS[2], 9]);
            assert_eq!(from_utf16(coding, &GAS_UNITS, &mut back), Written { length: 3, ..Written::default() });
            assert_eq!(back, [text[0], text[1], text[2], 9]);
        }
    }

    #[test]
    fn a_text_that_is_not_turned_writes_nothing() {
        let refused = |number, place| Written { number, place, ..Written::default() };
        let mut units = [9; 2];
        assert_eq!(to_utf16(3, &[0x98], &mut []), refused(ASK, 0));
        assert_eq!(to_utf16(WINDOWS, &[0x41, 0x98, 0x98], &mut units), refused(NO_CHARACTER, 1));
        assert_eq!(to_utf16(DOS, &[0x41, 0x98, 0x98], &mut units), refused(ROOM, 0));
        assert_eq!(units, [9; 2]);
        let mut text = [9];
        assert_eq!(from_utf16(u32::MAX, &[0xFFFF], &mut text), refused(ASK, 0));
        assert_eq!(from_utf16(KOI8, &[0x41, 0x42, 0xD83D], &mut text), refused(NO_CHARACTER, 2));
        assert_eq!(from_utf16(KOI8, &[0x41, 0x42], &mut text), refused(ROOM, 0));
        assert_eq!(text, [9]);
    }

    const Q: &[u8] = include_bytes!("../../../samples/Q.sxf");
    const DIRTY_TAIL: &[u8] = include_bytes!("../../../samples/dirty-tail.sxf");
    const NO_ZERO: &[u8] = include_bytes!("../../../samples/no-zero.sxf");

    #[test]
    fn a_hop_tells_the_first_record_of_a_code() {
        let record = Hop { found: 1, at: 452, total: 42, looked: 1, ..Hop::default() };
        assert_eq!((first_with(Q, 0), frame_of(Q)), (record, record));
        assert_eq!(first_with(Q, 7), Hop { looked: 1, ..Hop::default() });
        assert_eq!(frame_of(&Q[..493]), Hop { number: SHORT, place: 456, ..Hop::default() });
    }

    /// A block with one entry, Q's record: code 0, the place in so many bytes, localisation 2; then zeros, two bytes for the kind, and the sum.
    fn block_of_q(place: usize, kind: [u8; 2]) -> [u8; BLOCK_SIZE] {
        let mut block = [0; BLOCK_SIZE];
        block[2] = 1;
        block[8..10].copy_from_slice(&452u16.to_le_bytes());
        block[8 + place] = 2;
        block[508..510].copy_from_slice(&kind);
        let sum: u16 = block.iter().map(|&byte| u16::from(byte)).sum();
        block[510..].copy_from_slice(&sum.to_le_bytes());
        block
    }

    #[test]
    fn an_index_is_built_in_the_new_kind_and_read_in_both() {
        let (old, new) = (block_of_q(3, [0, 0]), block_of_q(4, [1, 0]));
        let mut built = [9; BLOCK_SIZE];
        assert_eq!(index_build(Q, 2017, &mut built), Written { length: 512, ..Written::default() });
        assert!(built == new);
        for block in [old, new] {
            assert_eq!(index_check(&block), Index { entries: 1, blocks: 1, ..Index::default() });
            let (mut entry, mut pick) = ([9; ENTRY_WIDTH], [9; PICK_WIDTH]);
            let three = Written { length: 3, ..Written::default() };
            assert_eq!((index_read(&block, &mut entry), index_select(&block, 0, &mut pick)), (three, three));
            assert_eq!((entry, pick), ([0, 452, 2], [0, 452, 2]));
        }
        for none in [block_of_q(3, [0, 1]), block_of_q(4, [2, 0]), block_of_q(4, [1, 1])] {
            assert_eq!(index_check(&none), Index { number: BAD_BLOCK, ..Index::default() });
        }
    }

    #[test]
    fn a_head_tells_which_tails_are_clean() {
        let clean = Head {
            designation: 1,
            designation2: 1,
            date_clean: 1,
            designation_clean: 1,
            title_clean: 1,
            designation2_clean: 1,
            ..Head::default()
        };
        assert_eq!(head_of(Q, 2017), clean);
        assert_eq!(head_of(DIRTY_TAIL, 2017), Head { designation_clean: 0, ..clean });
        assert_eq!(head_of(NO_ZERO, 2017), Head { number: TEXT, place: 64, ..Head::default() });
    }

    /// How many numbers, elements and bytes Q's table has.
    const LENGTHS: [usize; 3] = [15, 2, 2];

    #[test]
    fn what_is_unfolded_into_new_memory_is_what_is_unfolded_into_lent() {
        let (mut numbers, mut elements, mut bytes) = ([9; LENGTHS[0]], [9; LENGTHS[1]], [9; LENGTHS[2]]);
        let lent = unfold(Q, 2017, &mut numbers, &mut elements, &mut bytes);
        let (answer, new) = unfold_new(Q, 2017, LENGTHS);
        assert_eq!((lent.number, answer), (OK, lent));
        assert_eq!(new, (numbers.to_vec(), elements.to_vec(), bytes.to_vec()));
    }

    #[test]
    fn new_memory_of_other_lengths_stays_empty() {
        for lengths in [[16, 2, 2], [15, 3, 2], [15, 2, 3], [99; 3]] {
            let (answer, new) = unfold_new(Q, 2017, lengths);
            assert_eq!((answer.number, new), (OK, Unfolded::default()));
        }
        for (place, lengths) in [(1, [14, 2, 2]), (2, [15, 1, 2]), (3, [15, 2, 1])] {
            let (answer, new) = unfold_new(Q, 2017, lengths);
            assert_eq!((answer.number, answer.place, new), (ROOM, place, Unfolded::default()));
        }
    }
}
