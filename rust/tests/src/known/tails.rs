//! Sheet E of document 01 with old letters in its text fields, with texts that
//! fill them, and with no zero in them. E's sum is 795, an 'A' is 65 and an 'x'
//! 120; the places, lengths and sums are worked out by hand.

use super::{says, sheet_e};
use crate::archive;
use crate::judge::Judge;
use crate::stored::put;
use sxf_sys::fields::{descriptor, passport, Field};
use sxf_sys::refusals::{OK, SUM, TEXT};

const YEAR: u32 = 1999;

/// How many there are.
pub const CASES: u64 = 4;

/// Runs one of them.
pub fn run(judge: &mut Judge, case: u64) {
    match case {
        0 => of_one_byte(judge),
        1 => full(judge),
        2 => all_four(judge),
        _ => no_zero(judge),
    }
}

/// Bytes that stand at a place of E.
type Bytes<'a> = (usize, &'a [u8]);

/// E with these bytes, and a sum.
fn e_with(bytes: &[Bytes], sum: u32) -> Vec<u8> {
    let mut sheet = sheet_e();
    for (place, bytes) in bytes {
        sheet[*place..][..bytes.len()].copy_from_slice(bytes);
    }
    put(&mut sheet, passport::SUM, sum);
    sheet
}

/// What is stated of a sheet: the lengths of its texts and which of its text
/// fields are clean, both by rising place.
struct Stated {
    lengths: [u64; 4],
    clean: [u64; 4],
}

/// The sheet of this sum is accepted, its head is as stated, and what it is read
/// to is written to the cleared one.
fn is_read(judge: &mut Judge, name: &str, sheet: &[u8], sum: u64, stated: Stated, cleared: &[u8]) {
    let ([date, designation, title, designation2], clean) = (stated.lengths, stated.clean);
    let [date_clean, designation_clean, title_clean, designation2_clean] = clean;
    let due = archive::Head {
        date,
        designation,
        title,
        designation2,
        date_clean,
        designation_clean,
        title_clean,
        designation2_clean,
        ..archive::Head::default()
    };
    says(judge, name, sheet, YEAR, Ok((sum, 0)));
    judge.same(|| format!("{name}, the head"), archive::head_of(sheet, YEAR), due);
    judge.same(|| format!("{name}, written back"), written_back(sheet, &due), Ok(cleared.to_vec()));
    let read = second::read(sheet, YEAR).map(|reading| reading.tails.clean().map(u64::from));
    judge.same(|| format!("{name}, clean fields by page and second"), Ok(clean), read);
    judge.same(|| format!("{name}, cleared by page and second"), cleared, &second::cleared(sheet));
}

/// What the archive writes from the texts of these lengths in a sheet without
/// records, from what the sheet carries, and from no table; or its refusal.
fn written_back(sheet: &[u8], head: &archive::Head) -> Result<Vec<u8>, u64> {
    let text = |field: Field, length: u64| sheet[field.place..][..length as usize].to_vec();
    let mut rest = [0; passport::REST.width];
    rest.copy_from_slice(&sheet[passport::REST.range()]);
    let mut carried = [0; descriptor::CARRIED.width];
    carried.copy_from_slice(&sheet[descriptor::CARRIED.range()]);
    let head = second::Head {
        date: text(passport::DATE, head.date),
        designation: text(passport::DESIGNATION, head.designation),
        scale: head.scale as u32,
        title: text(passport::TITLE, head.title),
        rest,
        designation2: text(descriptor::DESIGNATION, head.designation2),
        carried,
    };
    let mut out = vec![9; sheet.len()];
    match archive::write(YEAR, &head, &second::Table::default(), &mut out).number {
        OK => Ok(out),
        number => Err(number),
    }
}

/// E's own texts: an 'A' twice.
const OF_E: [u64; 4] = [0, 1, 0, 1];

/// One byte behind a text: the last of its field, and the first behind its zero.
fn of_one_byte(judge: &mut Judge) {
    for (name, place, clean) in [
        ("the date's last byte", 27, [0, 1, 1, 1]),
        ("the designation's last byte", 59, [1, 0, 1, 1]),
        ("the title's last byte", 95, [1, 1, 0, 1]),
        ("the second designation's last byte", 439, [1, 1, 1, 0]),
        ("behind the date's zero", 17, [0, 1, 1, 1]),
        ("behind the designation's zero", 30, [1, 0, 1, 1]),
        ("behind the title's zero", 65, [1, 1, 0, 1]),
        ("behind the second designation's zero", 410, [1, 1, 1, 0]),
    ] {
        let sheet = e_with(&[(place, b"x")], 915);
        is_read(judge, name, &sheet, 915, Stated { lengths: OF_E, clean }, &sheet_e());
    }
    judge.accepted = true;
}

/// Behind texts that fill their fields nothing stands, and that is clean. With
/// one letter less there is one byte behind the zero.
fn full(judge: &mut Judge) {
    let letters = [b'A'; 31];
    for (name, place, length, sum, lengths, dirty) in [
        ("a date of 11", 16, 11, 1510, [11, 1, 0, 1], [0, 1, 1, 1]),
        ("a designation of 31", 28, 31, 2745, [0, 31, 0, 1], [1, 0, 1, 1]),
        ("a title of 31", 64, 31, 2810, [0, 1, 31, 1], [1, 1, 0, 1]),
        ("a second designation of 31", 408, 31, 2745, [0, 1, 0, 31], [1, 1, 1, 0]),
    ] {
        let sheet = e_with(&[(place, &letters[..length])], sum);
        is_read(judge, name, &sheet, sum.into(), Stated { lengths, clean: [1; 4] }, &sheet);
        let shorter = &letters[1..length];
        let cleared = e_with(&[(place, shorter)], sum - 65);
        let sheet = e_with(&[(place, shorter), (place + length, b"x")], sum - 65 + 120);
        let lengths = lengths.map(|own| if own == length as u64 { own - 1 } else { own });
        let stated = Stated { lengths, clean: dirty };
        is_read(judge, &format!("{name}, without its first letter"), &sheet, (sum + 55).into(), stated, &cleared);
    }
    judge.accepted = true;
}

/// A date of one letter, an empty title, and old letters behind all four: 10, 30,
/// 31 and 30 of them.
fn all_four(judge: &mut Judge) {
    let old = [b'x'; 31];
    let sheet = e_with(&[(16, b"A"), (18, &old[..10]), (30, &old[..30]), (65, &old), (410, &old[..30])], 12_980);
    let cleared = e_with(&[(16, b"A")], 860);
    is_read(judge, "old letters behind all four", &sheet, 12_980, Stated { lengths: [1, 1, 0, 1], clean: [0; 4] }, &cleared);
    // A zero among the old letters, and the texts cut by it, are old letters too.
    let sheet = e_with(&[(28, b"\0AA\0A"), (64, b"A\0\0A")], 1055);
    let cleared = e_with(&[(28, &[0]), (64, b"A")], 795);
    let stated = Stated { lengths: [0, 0, 1, 1], clean: [1, 0, 0, 1] };
    is_read(judge, "zeros among old letters", &sheet, 1055, stated, &cleared);
    judge.accepted = true;
}

/// "6 for a text field is now only given when it has no zero at all" (document
/// 02, request 6): by rising place, after the sum, and whatever stands in tails.
fn no_zero(judge: &mut Judge) {
    let full = [b'A'; 32];
    let (date, designation, title, designation2) = ((16, &full[..12]), (28, &full[..]), (64, &full[..]), (408, &full[..]));
    for (name, bytes, sum, place) in [
        ("no zero in the date", &[date][..], 1575, 16),
        ("no zero in the designation", &[designation], 2810, 28),
        ("no zero in the title", &[title], 2875, 64),
        ("no zero in the second designation", &[designation2], 2810, 408),
        ("no zero in any", &[date, designation, title, designation2], 7685, 16),
        ("no zero in the last two", &[title, designation2], 4890, 64),
        ("no zero in the date, and an empty designation", &[date, (28, &[0])], 1510, 16),
        ("a dirty date before a designation without a zero", &[(27, b"x"), designation], 2930, 28),
        ("dirty texts before a second designation without a zero", &[(27, b"x"), (59, b"x"), (95, b"x"), designation2], 3170, 408),
    ] {
        let sheet = e_with(bytes, sum);
        says(judge, name, &sheet, YEAR, Err((TEXT, place, 0)));
        let due = archive::Head { number: TEXT, place, ..archive::Head::default() };
        judge.same(|| format!("{name}, the head"), archive::head_of(&sheet, YEAR), due);
        let wrong_sum = e_with(bytes, sum + 1);
        says(judge, &format!("{name}, and the sum wrong"), &wrong_sum, YEAR, Err((SUM, 12, 0)));
    }
}
