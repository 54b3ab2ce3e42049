//! A sheet longer than sheets could be before 02, request 7. Its sum passes 32 bits, and its second record has a place that takes four bytes.
mod common;

use common::{read, whole_sum};
use sxf::fields::{header, passport, START};
use sxf::{check, first_with, row, write, Head, Index, Reference, Refusal, Setting, Table};

/// How long a sheet could be before.
const OLD_LIMIT: usize = 16_777_216;

/// How many points of two 8-byte elements the first record has.
const POINTS: usize = 1_100_000;

/// Where the second record starts, which three bytes do not hold.
const SECOND: usize = START + header::SIZE + 16 * POINTS;
const _: () = assert!(SECOND > 0xFF_FFFF);

/// The code of the second record.
const CODE: u32 = 31_120_000;

/// A record of so many points whose elements are of 8 bytes, and one without points. Every byte of the elements is 255.
fn table() -> Table {
    let reference = (Reference::FLOATING | Reference::ELEMENT_SIZE).into();
    let first = row::Record { reference, word: POINTS as u64, parts: 1, mark: 1, ..Default::default() };
    let second = row::Record { code: CODE.into(), parts: 1, ..Default::default() };
    let part = |points| row::Part { points, text_length: 0 }.numbers();
    let numbers = [&first.numbers()[..], &part(POINTS as u64), &second.numbers(), &part(0)].concat();
    Table { numbers, elements: vec![u64::MAX; 2 * POINTS], bytes: Vec::new() }
}

fn sheet() -> Vec<u8> {
    write(&Head::PLAIN, table().lend(), Setting::Y2017).expect("a sheet")
}

/// "The sum may now pass 32 bits, and only its low 32 are kept" (02, request 7).
#[test]
fn the_low_32_bits_of_the_sum_are_kept() {
    let mut bytes = sheet();
    assert!(bytes.len() > OLD_LIMIT);
    let stored = u32::from_le_bytes(bytes[passport::SUM.range()].try_into().expect("four bytes"));
    let whole = whole_sum(&bytes) - whole_sum(&bytes[passport::SUM.range()]);
    assert!(whole > u32::MAX.into());
    assert_eq!((stored, check(&bytes, Setting::Y2017).expect("an accepted sheet").sum), (whole as u32, whole as u32));
    bytes[passport::SUM.place] ^= 1;
    let refusal = Refusal { number: Refusal::SUM, place: passport::SUM.place, year: 0 };
    assert_eq!(check(&bytes, Setting::Y2017), Err(refusal));
}

#[test]
fn it_is_read_and_written_back() {
    let bytes = sheet();
    let sheet = read(&bytes);
    assert!(sheet.table() == table().lend());
    assert!(sheet.cleared().expect("the sheet") == bytes);
}

/// "The index of 3) can't hold such places in three bytes" (02, request 7).
#[test]
fn its_index_has_places_of_four_bytes() {
    let bytes = sheet();
    let index = Index::build(&bytes, Setting::Y2017).expect("an accepted sheet");
    let found = |picks: sxf::Picks| picks.map(|pick| (pick.record, pick.place)).collect::<Vec<_>>();
    assert_eq!(found(index.select(CODE)), [(1, SECOND)]);
    assert_eq!(found(read(&bytes).select(CODE).expect("an accepted sheet")), [(1, SECOND)]);
    assert_eq!(first_with(&bytes, CODE).expect("headers").found.map(|hit| hit.place), Some(SECOND));
}
