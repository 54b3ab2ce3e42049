//! Hops over three records of 36 bytes, at 452, 488 and 524, with the codes 7, 8
//! and 8; over sheets P, Q and E; and over what is none.

use super::{sheet_e, sheet_p, sheet_q};
use crate::archive::{self, Hop};
use crate::hops::{no_hit, refused};
use crate::judge::Judge;
use crate::numbers::Numbers;
use crate::stored::{put, put_if_there};
use sxf_sys::fields::{descriptor, header, passport, Field, LIMIT, START};
use sxf_sys::refusals::{LENGTH, NOT_SXF, SHORT, TOO_LONG};

/// How many there are.
pub const CASES: u64 = 5;

/// Runs one of them.
pub fn run(judge: &mut Judge, case: u64) {
    match case {
        0 => hits(judge),
        1 => refusals_of_head(judge),
        2 => refusals_of_headers(judge),
        3 => cuts(judge),
        _ => not_looked_at(judge),
    }
}

/// Where the records start, and where the sheet ends.
const FIRST: usize = 452;
const SECOND: usize = 488;
const THIRD: usize = 524;
const END: usize = 560;

/// The three records. The sum is E's 795, the count 3, three times 1069 for P's
/// record, and the codes.
fn three() -> Vec<u8> {
    let mut sheet = sheet_p();
    let record = sheet[START..].to_vec();
    sheet.extend_from_slice(&record);
    sheet.extend_from_slice(&record);
    put(&mut sheet, passport::SUM, 4028);
    put(&mut sheet, descriptor::COUNT, 3);
    for (at, code) in [(FIRST, 7), (SECOND, 8), (THIRD, 8)] {
        put(&mut sheet, header::CODE.at(at), code);
    }
    sheet
}

/// The three records with another number in a field, and the sum left as it is.
fn three_with(field: Field, number: u32) -> Vec<u8> {
    let mut sheet = three();
    put(&mut sheet, field, number);
    sheet
}

fn hit(record: u64, at: u64, total: u64, looked: u64) -> Hop {
    Hop { found: 1, record, at, total, looked, ..Hop::default() }
}

/// What a hop to a code answers, and one to the frame of the sheet with this code
/// in its passport; it may be too short to have one.
fn says(judge: &mut Judge, name: &str, sheet: &[u8], code: u32, due: Hop) {
    let mut framed = sheet.to_vec();
    says_in_place(judge, name, &mut framed, code, due);
    judge.hops(&framed, &[code], &mut Numbers::of_case(0, 0, 0));
}

/// The same of a sheet that gets the code in its passport where it is, since it is
/// too large to be copied, and to have all else altered.
fn says_in_place(judge: &mut Judge, name: &str, sheet: &mut [u8], code: u32, due: Hop) {
    let with_code = judge.first_with(sheet, code);
    put_if_there(sheet, passport::FRAME, code);
    let answers = (with_code, judge.frame_of(sheet));
    judge.same(|| format!("{name}, code {code}, by the archive and by hand"), answers, (due, due));
}

/// The first record with a code, or none.
fn hits(judge: &mut Judge) {
    let (three, p, q, e) = (three(), sheet_p(), sheet_q(), sheet_e());
    for (name, sheet, code, due) in [
        ("three records", &three, 7, hit(0, 452, 36, 1)),
        ("three records", &three, 8, hit(1, 488, 36, 2)),
        ("three records", &three, 9, no_hit(3)),
        // No code is cut to fewer bytes.
        ("three records", &three, 7 | 1 << 8, no_hit(3)),
        ("three records", &three, 8 | 1 << 31, no_hit(3)),
        ("three records", &three, 0, no_hit(3)),
        ("P", &p, 0, hit(0, 452, 36, 1)),
        ("P", &p, 1, no_hit(1)),
        ("Q", &q, 0, hit(0, 452, 42, 1)),
        ("E", &e, 0, no_hit(0)),
    ] {
        says(judge, name, sheet, code, due);
        judge.hops_are_readings(sheet, 1999, &[code]);
    }
    let sum = archive::check(&three, 1999).sum;
    judge.same(|| "the three records' sum".into(), sum, 4028);
    // 0 is a code like any other, and the frame's here.
    let frames = (judge.frame_of(&p), judge.frame_of(&three));
    judge.same(|| "frames of P and of the three records".into(), frames, (hit(0, 452, 36, 1), no_hit(3)));
    judge.accepted = true;
}

/// Size, identifiers and count.
fn refusals_of_head(judge: &mut Judge) {
    let three = three();
    says(judge, "451 bytes", &three[..451], 7, refused(SHORT, 0));
    says(judge, "351 bytes", &three[..351], 7, refused(SHORT, 0));
    says(judge, "no bytes", &[], 7, refused(SHORT, 0));
    says(judge, "452 bytes of E", &sheet_e(), 7, no_hit(0));
    let no_passport = three_with(passport::IDENTIFIER, 0x0046_5854);
    let no_descriptor = three_with(descriptor::IDENTIFIER, 0x0054_4145);
    let mut neither = no_passport.clone();
    put(&mut neither, descriptor::IDENTIFIER, 0);
    says(judge, "another identifier of the passport", &no_passport, 7, refused(NOT_SXF, 0));
    says(judge, "another identifier of the descriptor", &no_descriptor, 7, refused(NOT_SXF, 400));
    says(judge, "neither identifier", &neither, 7, refused(NOT_SXF, 0));
    says(judge, "neither identifier, and 451 bytes", &neither[..451], 7, refused(SHORT, 0));

    for (count, seven, eight, nine) in [
        (0, no_hit(0), no_hit(0), no_hit(0)),
        (1, hit(0, 452, 36, 1), no_hit(1), no_hit(1)),
        (2, hit(0, 452, 36, 1), hit(1, 488, 36, 2), no_hit(2)),
        (4, hit(0, 452, 36, 1), hit(1, 488, 36, 2), refused(SHORT, 560)),
        (0x8000_0000, hit(0, 452, 36, 1), hit(1, 488, 36, 2), refused(SHORT, 560)),
        (0xFFFF_FFFE, hit(0, 452, 36, 1), hit(1, 488, 36, 2), refused(SHORT, 560)),
        (0xFFFF_FFFF, hit(0, 452, 36, 1), hit(1, 488, 36, 2), refused(SHORT, 560)),
    ] {
        let sheet = three_with(descriptor::COUNT, count);
        for (code, due) in [(7, seven), (8, eight), (9, nine)] {
            says(judge, &format!("count {count}"), &sheet, code, due);
        }
    }

    // What is zero from the start takes no memory until it is looked at.
    let mut long = vec![0; LIMIT + 1];
    says_in_place(judge, "nothing but zeros over the limit", &mut long, 8, refused(TOO_LONG, 0));
    long[..three.len()].copy_from_slice(&three);
    says_in_place(judge, "zeros over the limit", &mut long, 8, refused(TOO_LONG, 0));
    let within = &mut long[..LIMIT];
    says_in_place(judge, "zeros up to the limit", within, 8, hit(1, 488, 36, 2));
    says_in_place(judge, "zeros up to the limit", within, 9, no_hit(3));
    judge.accepted = true;
}

/// Identifier and total length of the second record, which come before its code.
fn refusals_of_headers(judge: &mut Judge) {
    let no_identifier = three_with(header::IDENTIFIER.at(SECOND), 0x7FFF_7FFE);
    for (code, due) in [(7, hit(0, 452, 36, 1)), (8, refused(NOT_SXF, 488)), (9, refused(NOT_SXF, 488))] {
        says(judge, "another identifier of the second record", &no_identifier, code, due);
    }
    for (total, eight, nine) in [
        (0, refused(LENGTH, 492), refused(LENGTH, 492)),
        (31, refused(LENGTH, 492), refused(LENGTH, 492)),
        // The next header would be in the second record's metric.
        (32, hit(1, 488, 32, 2), refused(NOT_SXF, 520)),
        (36, hit(1, 488, 36, 2), no_hit(3)),
        (40, hit(1, 488, 40, 2), refused(NOT_SXF, 528)),
        (41, hit(1, 488, 41, 2), refused(SHORT, 529)),
        (72, hit(1, 488, 72, 2), refused(SHORT, 560)),
        (73, refused(SHORT, 492), refused(SHORT, 492)),
        // In 32 bits the next header would be the first again.
        (0xFFFF_FFDC, refused(SHORT, 492), refused(SHORT, 492)),
        (0xFFFF_FFFF, refused(SHORT, 492), refused(SHORT, 492)),
    ] {
        let sheet = three_with(header::TOTAL.at(SECOND), total);
        for (code, due) in [(7, hit(0, 452, 36, 1)), (8, eight), (9, nine)] {
            says(judge, &format!("total length {total}"), &sheet, code, due);
        }
        // The identifier comes first.
        let mut neither = sheet;
        put(&mut neither, header::IDENTIFIER.at(SECOND), 0);
        says(judge, &format!("total length {total}, and no identifier"), &neither, 8, refused(NOT_SXF, 488));
    }
    judge.accepted = true;
}

/// Too few bytes for a header, or for a record.
fn cuts(judge: &mut Judge) {
    let three = three();
    for (length, seven, eight) in [
        (FIRST, refused(SHORT, 452), refused(SHORT, 452)),
        (FIRST + 31, refused(SHORT, 452), refused(SHORT, 452)),
        (FIRST + 32, refused(SHORT, 456), refused(SHORT, 456)),
        (SECOND - 1, refused(SHORT, 456), refused(SHORT, 456)),
        (SECOND, hit(0, 452, 36, 1), refused(SHORT, 488)),
        (SECOND + 31, hit(0, 452, 36, 1), refused(SHORT, 488)),
        (THIRD - 1, hit(0, 452, 36, 1), refused(SHORT, 492)),
        (THIRD, hit(0, 452, 36, 1), hit(1, 488, 36, 2)),
        (END - 1, hit(0, 452, 36, 1), hit(1, 488, 36, 2)),
    ] {
        for (code, due) in [(7, seven), (8, eight)] {
            says(judge, &format!("cut to {length} bytes"), &three[..length], code, due);
        }
    }
    judge.accepted = true;
}

/// Lengths and edition, sum, texts and flags of the head, metric lengths,
/// contents, and bytes after the last record: "contents and sum aren't checked".
fn not_looked_at(judge: &mut Judge) {
    const MOST: u32 = 0xFFFF_FFFF;
    let fields = [
        passport::OWN_LENGTH,
        passport::EDITION,
        passport::SUM,
        passport::DATE,
        passport::DESIGNATION,
        passport::TITLE,
        passport::FLAGS,
        passport::NORTH,
        descriptor::OWN_LENGTH,
        descriptor::DESIGNATION,
        descriptor::CARRIED,
        descriptor::RESERVED,
        header::METRIC.at(FIRST),
        header::REFERENCE.at(FIRST),
        header::WORD.at(FIRST),
        header::SUBOBJECTS.at(SECOND),
        header::METRIC.at(SECOND),
        Field::new(SECOND + header::SIZE, 4),
        header::IDENTIFIER.at(THIRD),
        header::TOTAL.at(THIRD),
    ];
    let mut all = three();
    for field in fields {
        let four = Field::new(field.place, 4);
        let sheet = three_with(four, MOST);
        says(judge, &format!("all ones at {}", field.place), &sheet, 8, hit(1, 488, 36, 2));
        put(&mut all, four, MOST);
    }
    says(judge, "all ones at all of them", &all, 8, hit(1, 488, 36, 2));
    all.resize(END + 40, 0xFF);
    says(judge, "and bytes after the last record", &all, 8, hit(1, 488, 36, 2));
    let longer = [three(), vec![0xFF; 40]].concat();
    says(judge, "bytes after the last record", &longer, 9, no_hit(3));
    judge.accepted = true;
}
