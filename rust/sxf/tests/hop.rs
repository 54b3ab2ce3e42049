//! The first record with a class code, and the frame, from header to header: on accepted sheets against their records, and on damaged ones what
//! is found, what is not noticed, and what is refused.
mod common;

use common::{code, read, record, sample, written, ACCEPTED, CODES, FIRST_CODE};
use sxf::fields::{descriptor, header, passport, Field, START};
use sxf::{check, first_with, frame, record_at, Head, Hit, Hop, Localisation, NewRecord, Refusal, Setting, Sheet, LIMIT};

/// A code that no record of these sheets has.
const NO_CODE: u32 = 7;

/// A line of this code, with so many points.
fn line(code: u32, points: usize) -> NewRecord {
    record(code, Localisation::Linear, points)
}

/// A sheet of these records, whose passport has this frame code.
fn framed(frame_code: u32, records: impl IntoIterator<Item = NewRecord>) -> Vec<u8> {
    let mut rest = *Head::PLAIN.rest;
    rest[passport::in_rest(passport::FRAME).range()].copy_from_slice(&frame_code.to_le_bytes());
    written(Head { rest: &rest, ..Head::PLAIN }, records)
}

/// A sheet of so many records, of different lengths. Its frame is the third, if it has so many.
fn sheet_of(records: usize) -> Vec<u8> {
    framed(code(2), (0..records).map(|number| line(code(number), number % 7)))
}

/// The samples that are accepted, and sheets of some records.
fn accepted() -> Vec<Vec<u8>> {
    ACCEPTED.map(sample).into_iter().chain([0, 1, 2, 3, 5, 64, 700].map(sheet_of)).collect()
}

/// What the reading of an accepted sheet says: the first of its records that has the code.
fn by_reading<'a>(sheet: &Sheet<'a>, code: u32) -> Hop<'a> {
    let of = |record: sxf::Record<'_>| {
        let (number, place) = (record.number(), record.place());
        Hit { record: number, place, bytes: &sheet.bytes()[place..][..record.total()] }
    };
    let found = sheet.records().find(|record| record.code() == code).map(of);
    Hop { code, found, looked: found.map_or(sheet.record_count(), |hit| hit.record + 1) }
}

/// "On an accepted sheet the answer equals the one from the full reading" (02, request 5).
#[test]
fn on_an_accepted_sheet_it_is_what_the_full_reading_gives() {
    for bytes in accepted() {
        let sheet = read(&bytes);
        let codes = sheet.records().map(|record| record.code()).take(2 * CODES);
        for code in codes.chain([0, 1, NO_CODE, FIRST_CODE - 1, u32::MAX]) {
            let hop = first_with(&bytes, code).expect("an accepted sheet");
            assert_eq!(hop, by_reading(&sheet, code));
            let Some(hit) = hop.found else { continue };
            let at = record_at(&bytes, Setting::Y2017, hit.record as u64).expect("a record");
            assert_eq!((at.code, at.place, at.total), (code, hit.place, hit.total()));
        }
    }
}

#[test]
fn the_frame_is_the_first_record_of_the_passports_code() {
    for bytes in accepted() {
        let sheet = read(&bytes);
        let code = sheet.head().expect("a head").frame_code();
        let hop = frame(&bytes).expect("an accepted sheet");
        assert_eq!(hop, by_reading(&sheet, code));
        let record = sheet.frame().expect("an accepted sheet");
        assert_eq!(record.map(|record| (record.number(), record.code())), hop.found.map(|hit| (hit.record, code)));
    }
    let bytes = sheet_of(20);
    // The three records have no point, one and two, of 4 bytes each.
    let hit = Hit { record: 2, place: 520, bytes: &bytes[520..560] };
    assert_eq!(frame(&bytes), Ok(Hop { code: code(2), found: Some(hit), looked: 3 }));
    assert_eq!(frame(&sheet_of(2)), Ok(Hop { code: code(2), found: None, looked: 2 }));
}

/// All four bytes of the code count, and 0 is a code like any other.
#[test]
fn a_frame_code_is_four_bytes_and_may_be_0() {
    let records = || [0x0102_0304, 0x0102_0300, 0x0100_0304, 0x0002_0304, 0].map(|code| line(code, 1));
    for (number, frame_code) in [0x0102_0304, 0x0102_0300, 0x0100_0304, 0x0002_0304, 0].into_iter().enumerate() {
        let bytes = framed(frame_code, records());
        let hop = frame(&bytes).expect("an accepted sheet");
        assert_eq!((hop.code, hop.found.map(|hit| hit.record), hop.looked), (frame_code, Some(number), number + 1));
    }
    assert_eq!(frame(&framed(0, [])), Ok(Hop { code: 0, found: None, looked: 0 }));
}

fn put(bytes: &mut [u8], field: Field, number: u32) {
    bytes[field.range()].copy_from_slice(&number.to_le_bytes());
}

/// The sheet with another number in a field of four bytes.
fn with(sheet: &[u8], field: Field, number: u32) -> Vec<u8> {
    let mut bytes = sheet.to_vec();
    put(&mut bytes, field, number);
    bytes
}

fn refused<T>(number: u32, place: usize) -> Result<T, Refusal> {
    Err(Refusal { number, place, year: 0 })
}

/// TOO LONG, SHORT, then the identifiers of passport and descriptor; each is given though the ones after it are wrong too.
#[test]
fn the_start_of_a_sheet_is_refused_in_order() {
    let both = |sheet: &[u8], due: Result<Hop<'_>, Refusal>| {
        assert_eq!(first_with(sheet, 0), due);
        assert_eq!(frame(sheet), due);
    };
    both(&vec![0; LIMIT + 1], refused(Refusal::TOO_LONG, 0));
    both(&vec![0; LIMIT], refused(Refusal::NOT_SXF, 0));
    for length in [0, 1, passport::FRAME.place + 1, START - 1] {
        both(&vec![0xFF; length], refused(Refusal::SHORT, 0));
        both(&sample("E")[..length], refused(Refusal::SHORT, 0));
    }
    both(&[0; START], refused(Refusal::NOT_SXF, 0));
    let (e, other) = (sample("E"), 0x0054_4145);
    both(&with(&e, descriptor::IDENTIFIER, other), refused(Refusal::NOT_SXF, descriptor::IDENTIFIER.place));
    both(&with(&with(&e, descriptor::IDENTIFIER, other), passport::IDENTIFIER, other), refused(Refusal::NOT_SXF, 0));
    both(&e, Ok(Hop { code: 0, found: None, looked: 0 }));
}

/// Three records of one point each: 36 bytes at 452, 488 and 524.
fn three() -> Vec<u8> {
    framed(2, (1..=3).map(|code| line(code, 1)))
}

const TOTAL: usize = 36;
const PLACES: [usize; 3] = [START, START + TOTAL, START + 2 * TOTAL];

/// Where a hit is, without its bytes.
fn numbers(answer: Result<Hop<'_>, Refusal>) -> Result<(Option<[usize; 3]>, usize), Refusal> {
    answer.map(|hop| (hop.found.map(|hit| [hit.record, hit.place, hit.total()]), hop.looked))
}

/// "It says only what the headers passed so far say": each byte of the sheet is changed in turn, and what the answer does not rest on leaves it as
/// it was. Of a header it rests on the identifier, the total length and the code.
#[test]
fn damage_elsewhere_is_not_noticed() {
    let sheet = three();
    let of_header = |place| [header::IDENTIFIER, header::TOTAL, header::CODE].map(|field| field.at(place));
    let start = [passport::IDENTIFIER, descriptor::IDENTIFIER, descriptor::COUNT];
    let due = Ok((Some([1, PLACES[1], TOTAL]), 2));
    let (mut noticed, mut by_frame) = (0, 0);
    for place in 0..sheet.len() {
        let mut damaged = sheet.clone();
        damaged[place] ^= 0x81;
        let within = |field: &Field| field.range().contains(&place);
        let rests = start.iter().chain(&of_header(PLACES[0])).chain(&of_header(PLACES[1])).any(within);
        let (hop, frame) = (numbers(first_with(&damaged, 2)), numbers(frame(&damaged)));
        // A count that is larger is not noticed where the hit comes first, nor another code before it.
        let may_stay = within(&descriptor::COUNT) || within(&header::CODE.at(PLACES[0]));
        assert!(hop == due || rests, "{place}: {hop:?}");
        assert!(hop != due || !rests || may_stay, "{place}: {hop:?}");
        assert!(frame == hop || within(&passport::FRAME), "{place}: {frame:?}");
        noticed += usize::from(hop != due);
        by_frame += usize::from(frame != hop);
    }
    // Two identifiers of the start; of the first header identifier and total length, of the second the code too. The frame has its own code.
    assert_eq!((noticed, by_frame), (2 * 4 + 2 * 4 + 3 * 4, 4));
}

/// What a check refuses for other reasons is found all the same, at no setting.
#[test]
fn what_a_check_refuses_may_be_found() {
    let first = |total| Ok((Some([0, START, total]), 1));
    for (name, total) in [("closing", 42), ("graphics", 36), ("left-over", 36), ("n1-not-zero", 48)] {
        let bytes = sample(name);
        assert!(check(&bytes, Setting::Y2017).is_err(), "{name}");
        assert_eq!([numbers(first_with(&bytes, 0)), numbers(frame(&bytes))], [first(total), first(total)], "{name}");
    }
    let dated = sample("dated");
    assert!(check(&dated, Setting::Y1999).is_err());
    assert_eq!(numbers(frame(&dated)), first(40));
    for name in ["sum-wrong", "no-zero"] {
        assert_eq!(numbers(frame(&sample(name))), Ok((None, 0)), "{name}");
    }
    assert_eq!(frame(&sample("too-short")), refused(Refusal::SHORT, 0));
    assert_eq!(frame(&sample("not-sxf")), refused(Refusal::NOT_SXF, 0));
}

/// A total length is refused before its record's code is looked at, and after the hit it is not looked at.
#[test]
fn total_lengths_are_refused_header_by_header() {
    let sheet = three();
    let end = sheet.len() - PLACES[1];
    let beyond = [end as u32 + 1, 1 << 31, u32::MAX].map(|total| (total, Refusal::SHORT));
    for (total, number) in [(0, Refusal::LENGTH), (1, Refusal::LENGTH), (31, Refusal::LENGTH)].into_iter().chain(beyond) {
        let total_at = header::TOTAL.at(PLACES[1]);
        let bytes = with(&sheet, total_at, total);
        assert_eq!(numbers(first_with(&bytes, 1)), Ok((Some([0, PLACES[0], TOTAL]), 1)), "{total}");
        for code in [2, 3, NO_CODE] {
            assert_eq!(first_with(&bytes, code), refused(number, total_at.place), "{total}");
        }
        assert_eq!(frame(&bytes), refused(number, total_at.place), "{total}");
    }
    // The record may have 32 bytes, or all that are left; what follows is then where it ends.
    for total in [header::SIZE, header::SIZE + 1, TOTAL, end] {
        let bytes = with(&sheet, header::TOTAL.at(PLACES[1]), total as u32);
        assert_eq!(numbers(first_with(&bytes, 2)), Ok((Some([1, PLACES[1], total]), 2)), "{total}");
        let due = match total {
            TOTAL => Ok((Some([2, PLACES[2], TOTAL]), 3)),
            _ if total == end => refused(Refusal::SHORT, sheet.len()),
            _ => refused(Refusal::NOT_SXF, PLACES[1] + total),
        };
        assert_eq!(numbers(first_with(&bytes, 3)), due, "{total}");
    }
}

/// The identifier is looked at before the total length, and neither where fewer than 32 bytes are left.
#[test]
fn a_header_is_refused_in_order() {
    let sheet = three();
    let last = with(&with(&sheet, header::IDENTIFIER.at(PLACES[2]), 0), header::TOTAL.at(PLACES[2]), 0);
    assert_eq!(first_with(&last, 3), refused(Refusal::NOT_SXF, PLACES[2]));
    for left in 0..header::SIZE {
        let cut = &last[..PLACES[2] + left];
        assert_eq!(first_with(cut, 3), refused(Refusal::SHORT, PLACES[2]), "{left}");
        assert_eq!(numbers(first_with(cut, 2)), Ok((Some([1, PLACES[1], TOTAL]), 2)), "{left}");
    }
    assert_eq!(first_with(&last[..PLACES[2] + header::SIZE], 3), refused(Refusal::NOT_SXF, PLACES[2]));
    // A whole header, whose total length is past the end.
    let cut = &sheet[..PLACES[2] + header::SIZE];
    assert_eq!(first_with(cut, 3), refused(Refusal::SHORT, header::TOTAL.at(PLACES[2]).place));
}

/// "Stopping at the first hit or after the counted records": the descriptor's count is believed, however large it is.
#[test]
fn counted_are_the_records_that_the_descriptor_states() {
    let sheet = three();
    for count in [4, 1 << 16, 1 << 31, u32::MAX - 1, u32::MAX] {
        let bytes = with(&sheet, descriptor::COUNT, count);
        assert_eq!(numbers(first_with(&bytes, 3)), Ok((Some([2, PLACES[2], TOTAL]), 3)), "{count}");
        assert_eq!(first_with(&bytes, NO_CODE), refused(Refusal::SHORT, sheet.len()), "{count}");
    }
    for count in 0..=3 {
        let bytes = with(&sheet, descriptor::COUNT, count as u32);
        for code in 1..=3 {
            let hit = code - 1;
            let due = if hit < count { (Some([hit, PLACES[hit], TOTAL]), hit + 1) } else { (None, count) };
            assert_eq!(numbers(first_with(&bytes, code as u32)), Ok(due), "{code} of {count}");
        }
    }
}

/// As many headers as a sheet can have, each of 32 bytes.
#[test]
fn a_sheet_full_of_headers_is_gone_over_to_its_end() {
    let count = (LIMIT - START) / header::SIZE;
    let bytes = framed(NO_CODE, (0..count).map(|number| line(number as u32 + 8, 0)));
    assert_eq!(numbers(frame(&bytes)), Ok((None, count)));
    let last = START + (count - 1) * header::SIZE;
    assert_eq!(numbers(first_with(&bytes, count as u32 + 7)), Ok((Some([count - 1, last, header::SIZE]), count)));
}
