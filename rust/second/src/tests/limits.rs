//! Sheets at the limit and over it, and sums that pass 32 bits.

use super::*;
use crate::{check, cleared, read, record_at, write, LIMIT};

/// One record of long points with every bit set, under the mark, and so many
/// empty subobjects of four bytes each.
fn table_of(points: u64, subobjects: u64) -> Table {
    let mut numbers = vec![0, 0, 0, 0x04_0400, 255, points, 1 + subobjects, 0, 1];
    numbers.extend([points, 0]);
    numbers.resize(11 + 2 * subobjects as usize, 0);
    Table { numbers, elements: vec![u64::MAX; 2 * points as usize], bytes: vec![] }
}

const MOST_POINTS: u64 = (LIMIT as u64 - 484) / 16;
const SUBOBJECTS: u64 = (LIMIT as u64 - 484) % 16 / 4;

/// What a sum is taken modulo.
const WRAP: u64 = 1 << 32;

/// The sum of all bytes but those at 12, however large it is.
fn whole_sum(sheet: &[u8]) -> u64 {
    let of = |bytes: &[u8]| bytes.iter().map(|&byte| u64::from(byte)).sum::<u64>();
    of(&sheet[..12]) + of(&sheet[16..])
}

#[test]
fn a_sheet_of_the_limit() {
    assert_eq!(LIMIT, 67_108_864);
    let table = table_of(MOST_POINTS, SUBOBJECTS);
    let mut sheet = write(2004, &head_e(), &table, LIMIT).unwrap();
    assert_eq!(sheet.len(), LIMIT);
    let reading = read(&sheet, 2004).unwrap();
    assert!(reading.table == table);
    // 64 MiB of 255, but for the first 484 bytes, pass 32 bits three times.
    let whole = whole_sum(&sheet);
    assert_eq!((whole / WRAP, reading.sum), (3, whole % WRAP));
    assert_eq!(u64::from(u32::from_le_bytes([sheet[12], sheet[13], sheet[14], sheet[15]])), whole % WRAP);
    assert_eq!(check(&sheet, 2004), Ok(sizes_of(&reading)));
    assert_eq!(record_at(&sheet, 2004, 0).unwrap().points, MOST_POINTS);
    let room = write(2004, &head_e(), &table, LIMIT - 1);
    assert_eq!(room, Err(refused(15, 0)));

    sheet.push(0);
    assert_eq!(check(&sheet, 2004), Err(refused(1, 0)));
}

#[test]
fn an_island_that_fills_a_sheet() {
    let island = MOST_POINTS - SHORE - 1;
    let mut table = table_of(SHORE, 1);
    table.numbers[LATER_POINTS as usize] = island;
    table.elements.resize(2 * (SHORE + island) as usize, 1);
    let sheet = write(2004, &head_e(), &table, LIMIT).unwrap();
    let [low, high, upper_low, upper_high] = (island as u32).to_le_bytes();
    assert_eq!(sheet[484 + 160..][..4], [upper_low, upper_high, low, high]);
    assert!(read(&sheet, 2004).unwrap().table == table);
}

#[test]
fn a_sheet_over_the_limit() {
    assert_eq!(read(&vec![0; LIMIT + 1], 2017), Err(refused(1, 0)));
    assert_eq!(read(&vec![0; LIMIT + 1], 2018), Err(refused(16, 0)));
    assert_eq!(read(&vec![0; LIMIT], 2017), Err(refused(3, 0)));
    assert_eq!(check(&vec![0; LIMIT + 1], 2017), Err(refused(1, 0)));
    assert_eq!(check(&vec![0; LIMIT + 1], 2018), Err(refused(16, 0)));

    // Before ROOM, and after TABLE.
    let mut table = table_of(MOST_POINTS, SUBOBJECTS + 1);
    assert_eq!(write(2004, &head_e(), &table, 0), Err(refused(1, 0)));
    table.bytes.push(0);
    let index = table.numbers.len() as u64;
    assert_eq!(write(2004, &head_e(), &table, 0), Err(refused(14, index)));
}

/// Enough points of 16 bytes for a sum of 2^32 and a little more: 16,843,009
/// bytes of 255 come to 2^32 - 1.
const POINTS_PAST_WRAP: u64 = 16_843_009 / 16 + 1;

/// A sheet whose bytes come to this whole sum, not much over 2^32: of its points
/// as many bytes are 255 as it takes, one is what is then missing, and the others
/// are zero. What is stored are the low 32 bits.
fn sheet_of_sum(whole: u64) -> Vec<u8> {
    let mut table = table_of(POINTS_PAST_WRAP, 0);
    table.elements.fill(0);
    let mut sheet = write(2004, &head_e(), &table, LIMIT).unwrap();
    let missing = whole - whole_sum(&sheet);
    let (full, rest) = (missing as usize / 255, (missing % 255) as u8);
    sheet[484..484 + full].fill(0xFF);
    sheet[484 + full] = rest;
    assert_eq!(whole_sum(&sheet), whole);
    store_sum(&mut sheet, whole as u32);
    sheet
}

fn store_sum(sheet: &mut [u8], sum: u32) {
    sheet[12..16].copy_from_slice(&sum.to_le_bytes());
}

/// "The sum may now pass 32 bits, and only its low 32 are kept" (document 02,
/// request 7): in reading, in writing, and in what is answered.
#[test]
fn sums_about_32_bits() {
    for (whole, kept) in [(WRAP - 1, u32::MAX), (WRAP, 0), (WRAP + 1, 1), (WRAP + 255, 255)] {
        let mut sheet = sheet_of_sum(whole);
        let reading = read(&sheet, 2004).unwrap();
        assert_eq!(reading.sum, u64::from(kept));
        assert_eq!(check(&sheet, 2004), Ok(sizes_of(&reading)));
        assert!(write(2004, &reading.head, &reading.table, LIMIT).as_ref() == Ok(&sheet));
        for wrong in [kept.wrapping_add(1), kept.wrapping_sub(1), !kept, kept ^ 1 << 31] {
            store_sum(&mut sheet, wrong);
            assert_eq!(check(&sheet, 2004), Err(refused(5, 12)));
        }
        // A sum is not held down to the most that 32 bits hold.
        store_sum(&mut sheet, u32::MAX);
        assert_eq!(check(&sheet, 2004).is_ok(), whole == WRAP - 1);
    }
}

/// The whole sum in five bytes, of which the last is the first of the date. It
/// changes the sum; where it is counted, the sheet is one with another date.
#[test]
fn a_sum_of_five_bytes() {
    let mut sheet = sheet_of_sum(WRAP + 7);
    sheet[12..17].copy_from_slice(&[7, 0, 0, 0, 1]);
    assert_eq!(read(&sheet, 2004), Err(refused(5, 12)));
    sheet[12] = 8;
    let reading = read(&sheet, 2004).unwrap();
    assert_eq!((reading.sum, reading.head.date), (8, vec![1]));
}

/// Old letters behind the title, without which the sum stays below 2^32.
#[test]
fn tails_that_pass_32_bits() {
    let clean = sheet_of_sum(WRAP - 100);
    let mut dirty = clean.clone();
    dirty[95] = b'x';
    store_sum(&mut dirty, 20);
    let reading = read(&dirty, 2004).unwrap();
    assert_eq!((reading.sum, read(&clean, 2004).unwrap().sum), (20, WRAP - 100));
    assert!(cleared(&dirty) == clean);
    assert!(write(2004, &reading.head, &reading.table, LIMIT) == Ok(clean));
}
