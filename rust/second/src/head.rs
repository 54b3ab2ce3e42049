//! What stands before the records: passport and descriptor.

use crate::bytes::{bytes_at, put, put_u32, u32_at};
use crate::refusal::{require, Refusal};
use crate::years::{self, Setting};
use crate::LIMIT;

/// Bytes of passport and descriptor; the first record starts here.
pub(crate) const HEAD_BYTES: usize = 452;

pub(crate) const IDENTIFIER: u32 = 0x0046_5853;
const PASSPORT_LENGTH: u32 = 400;
const EDITION: u32 = 0x0004_0000;
pub(crate) const DESCRIPTOR_IDENTIFIER: u32 = 0x0054_4144;
const DESCRIPTOR_LENGTH: u32 = 52;

/// Where a text field starts, and its length.
const DATE: (usize, usize) = (16, 12);
const DESIGNATION: (usize, usize) = (28, 32);
const TITLE: (usize, usize) = (64, 32);
const DESIGNATION_2: (usize, usize) = (408, 32);
const TEXT_FIELDS: [(usize, usize); 4] = [DATE, DESIGNATION, TITLE, DESIGNATION_2];

const SUM: usize = 12;
const SCALE: usize = 60;
const REST: usize = 96;
/// Where the descriptor starts.
pub(crate) const DESCRIPTOR: usize = 400;
pub(crate) const COUNT: usize = 440;
const CARRIED: usize = 444;
const DESCRIPTOR_RESERVED: usize = 448;

/// What a sheet says before its records, save for fixed fields, sum and
/// count. Texts are what stands before the first zero of their fields.
#[derive(Clone, PartialEq, Eq, Debug)]
pub struct Head {
    /// The text at 16.
    pub date: Vec<u8>,
    /// The text at 28.
    pub designation: Vec<u8>,
    /// The scale denominator at 60.
    pub scale: u32,
    /// The text at 64.
    pub title: Vec<u8>,
    /// The bytes 96 to 399.
    pub rest: [u8; 304],
    /// The descriptor's text at 408; it need not agree with the first.
    pub designation2: Vec<u8>,
    /// The bytes 444 to 447.
    pub carried: [u8; 4],
}

impl Head {
    /// The writer's rules, by place in the sheet.
    pub(crate) fn check(&self, setting: Setting) -> Result<(), Refusal> {
        check_text(&self.date, DATE)?;
        check_text(&self.designation, DESIGNATION)?;
        check_text(&self.title, TITLE)?;
        check_rest(&self.rest, setting)?;
        check_text(&self.designation2, DESIGNATION_2)?;
        check_carried(&self.carried, setting)
    }

    /// Fills the first 452 bytes of a sheet, all zero so far, whose records
    /// are in place, and then the sum over the whole.
    pub(crate) fn store(&self, records: u32, sheet: &mut [u8]) {
        put_u32(sheet, 0, IDENTIFIER);
        put_u32(sheet, 4, PASSPORT_LENGTH);
        put_u32(sheet, 8, EDITION);
        put(sheet, DATE.0, &self.date);
        put(sheet, DESIGNATION.0, &self.designation);
        put_u32(sheet, SCALE, self.scale);
        put(sheet, TITLE.0, &self.title);
        put(sheet, REST, &self.rest);
        put_u32(sheet, DESCRIPTOR, DESCRIPTOR_IDENTIFIER);
        put_u32(sheet, 404, DESCRIPTOR_LENGTH);
        put(sheet, DESIGNATION_2.0, &self.designation2);
        put_u32(sheet, COUNT, records);
        put(sheet, CARRIED, &self.carried);
        put_u32(sheet, SUM, sum(sheet));
    }
}

/// What stands after the first zero of each text field. "Two other editors leave
/// old letters" there (document 02, request 6). It is as long as the field has
/// bytes left, so that behind a text which fills its field it is empty.
#[derive(Clone, PartialEq, Eq, Debug)]
pub struct Tails {
    /// Behind the text at 16.
    pub date: Vec<u8>,
    /// Behind the text at 28.
    pub designation: Vec<u8>,
    /// Behind the text at 64.
    pub title: Vec<u8>,
    /// Behind the descriptor's text at 408.
    pub designation2: Vec<u8>,
}

impl Tails {
    /// The four of them, by rising place.
    pub fn by_place(&self) -> [&[u8]; 4] {
        [&self.date, &self.designation, &self.title, &self.designation2]
    }

    /// Of each by rising place "whether the rest was clean" (document 02, request
    /// 6): all of it is zero.
    pub fn clean(&self) -> [bool; 4] {
        self.by_place().map(|tail| tail.iter().all(|&byte| byte == 0))
    }

    /// Whether all four are clean.
    pub fn all_clean(&self) -> bool {
        self.clean() == [true; 4]
    }
}

/// Of a sheet "its bytes with those tails cleared and the sum to match" (document
/// 02, request 6): whatever stands behind the first zero of a text field is zero.
/// A field without a zero has no tail; bytes that are too few for a passport and
/// a descriptor have no such field, and stay as they are.
pub fn cleared(sheet: &[u8]) -> Vec<u8> {
    let mut sheet = sheet.to_vec();
    if sheet.len() < HEAD_BYTES {
        return sheet;
    }
    for (place, length) in TEXT_FIELDS {
        let mut zero_seen = false;
        for byte in &mut sheet[place..place + length] {
            if zero_seen {
                *byte = 0;
            }
            zero_seen |= *byte == 0;
        }
    }
    let sum = sum(&sheet);
    put_u32(&mut sheet, SUM, sum);
    sheet
}

/// What stands in a sheet's first 452 bytes.
pub(crate) struct Opening {
    /// The stored sum, which is the right one.
    pub(crate) sum: u32,
    /// The record count at 440.
    pub(crate) records: u32,
    /// All that the writer takes again.
    pub(crate) head: Head,
    /// What was read past in the text fields.
    pub(crate) tails: Tails,
}

/// Reads what stands before the records: TOO LONG, 452 bytes, then passport
/// and descriptor by rising place.
pub(crate) fn read_head(sheet: &[u8], setting: Setting) -> Result<Opening, Refusal> {
    require(sheet.len() <= LIMIT, Refusal::TOO_LONG, 0)?;
    require(sheet.len() >= HEAD_BYTES, Refusal::SHORT, 0)?;
    fixed(sheet, 0, IDENTIFIER, Refusal::NOT_SXF)?;
    fixed(sheet, 4, PASSPORT_LENGTH, Refusal::EDITION)?;
    fixed(sheet, 8, EDITION, Refusal::EDITION)?;
    let sum = sum(sheet);
    fixed(sheet, SUM, sum, Refusal::SUM)?;
    let (date, date_tail) = read_text(sheet, DATE)?;
    let (designation, designation_tail) = read_text(sheet, DESIGNATION)?;
    let (title, title_tail) = read_text(sheet, TITLE)?;
    let rest = bytes_at::<304>(sheet, REST);
    check_rest(&rest, setting)?;
    fixed(sheet, DESCRIPTOR, DESCRIPTOR_IDENTIFIER, Refusal::NOT_SXF)?;
    fixed(sheet, 404, DESCRIPTOR_LENGTH, Refusal::EDITION)?;
    let (designation2, designation2_tail) = read_text(sheet, DESIGNATION_2)?;
    let carried = bytes_at::<4>(sheet, CARRIED);
    check_carried(&carried, setting)?;
    fixed(sheet, DESCRIPTOR_RESERVED, 0, Refusal::RESERVED)?;
    Ok(Opening {
        sum,
        records: u32_at(sheet, COUNT),
        head: Head { date, designation, scale: u32_at(sheet, SCALE), title, rest, designation2, carried },
        tails: Tails { date: date_tail, designation: designation_tail, title: title_tail, designation2: designation2_tail },
    })
}

/// The bytes from +96 on: four bytes of flags, then EPSG and the two offsets;
/// the others are carried as stored.
fn check_rest(rest: &[u8; 304], setting: Setting) -> Result<(), Refusal> {
    let [flags, coding, accuracy, sorting] = [rest[0], rest[1], rest[2], rest[3]];
    let bit_2_zero = flags & 0x04 == 0;
    require(state_allowed(flags) && bit_2_zero, Refusal::RESERVED, 96)?;
    require(coding <= 2, Refusal::RESERVED, 97)?;
    require(accuracy <= 3, Refusal::RESERVED, 98)?;
    setting.admit(accuracy != 0, years::ACCURACY, 98)?;
    require(sorting & 0xFE == 0, Refusal::RESERVED, 99)?;
    setting.admit(sorting & 0x01 != 0, years::SPECIAL_SORTING, 99)?;
    setting.admit(u32_at(rest, 100 - REST) != 0, years::EPSG, 100)?;
    let north = bytes_at::<8>(rest, 384 - REST);
    setting.admit(north != [0; 8], years::OFFSETS, 384)?;
    let east = bytes_at::<8>(rest, 392 - REST);
    setting.admit(east != [0; 8], years::OFFSETS, 392)
}

/// The four bytes at 444.
fn check_carried(carried: &[u8; 4], setting: Setting) -> Result<(), Refusal> {
    let [state, coding, secrecy, automatic] = *carried;
    require(state_allowed(state), Refusal::RESERVED, 444)?;
    require(coding <= 2, Refusal::RESERVED, 445)?;
    require(secrecy <= 5, Refusal::RESERVED, 446)?;
    require(automatic & 0xFC == 0, Refusal::RESERVED, 447)?;
    setting.admit(automatic & 0x01 != 0, years::AUTOMATIC_GUID, 447)?;
    setting.admit(automatic & 0x02 != 0, years::EDIT_DATE, 447)
}

/// What +96 and 444 have in common: bits 0-1 are 3, bits 3-4 are 0 or 3,
/// bits 5-6 are zero.
fn state_allowed(flags: u8) -> bool {
    flags & 0x03 == 0x03 && matches!(flags & 0x18, 0x00 | 0x18) && flags & 0x60 == 0
}

/// The sum of all bytes, those at 12 counted as zero. "The sum may now pass 32
/// bits, and only its low 32 are kept" (document 02, request 7): a carry out of
/// them is lost.
fn sum(sheet: &[u8]) -> u32 {
    let of = |bytes: &[u8]| bytes.iter().fold(0u32, |sum, &byte| sum.wrapping_add(u32::from(byte)));
    of(&sheet[..SUM]).wrapping_add(of(&sheet[SUM + 4..]))
}

/// A text field: its text, which is "before the first zero", and the tail behind
/// it. TEXT "is now only given when it has no zero at all" (document 02, request
/// 6).
fn read_text(sheet: &[u8], (place, length): (usize, usize)) -> Result<(Vec<u8>, Vec<u8>), Refusal> {
    let field = &sheet[place..place + length];
    let first_zero = field.iter().position(|&byte| byte == 0);
    let text_length = first_zero.ok_or(Refusal::new(Refusal::TEXT, place as u64))?;
    Ok((field[..text_length].to_vec(), field[text_length + 1..].to_vec()))
}

/// Whether a text may go into its field: no zero in it, and room for one
/// after it.
fn check_text(text: &[u8], (place, length): (usize, usize)) -> Result<(), Refusal> {
    let allowed = text.len() < length && !text.contains(&0);
    require(allowed, Refusal::TEXT, place as u64)
}

/// Refuses with `number` unless the four bytes at a place, which the sheet has,
/// are this value.
pub(crate) fn fixed(sheet: &[u8], place: usize, value: u32, number: u64) -> Result<(), Refusal> {
    require(u32_at(sheet, place) == value, number, place as u64)
}
