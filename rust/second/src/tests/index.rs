//! The code index: its bytes in both kinds, what is refused of it, and
//! selections.

use super::*;
use crate::BlockKind::{New, Old};
use crate::{index_build, index_build_of_kind, index_check, index_read, index_select, select, BlockKind, Index, LIMIT};

const ROOM: usize = 1 << 16;

/// The bytes of a block, and where its count, its entries, the two bytes that
/// tell its kind and its sum stand.
const BLOCK: usize = 512;
const COUNT: usize = 2;
const ENTRIES: usize = 4;
const ENDING: usize = 508;
const SUM: usize = 510;

/// What the documents say of the two kinds: the entries of a full block, the
/// bytes of an entry, the two bytes before the sum, and the most that a place can
/// be.
struct Form {
    kind: BlockKind,
    full: usize,
    entry: usize,
    ending: [u8; 2],
    most: u64,
}

const FORMS: [Form; 2] = [
    Form { kind: Old, full: 63, entry: 8, ending: [0, 0], most: 0xFF_FFFF },
    Form { kind: New, full: 56, entry: 9, ending: [1, 0], most: 0xFFFF_FFFF },
];

impl Form {
    /// The form of the other kind.
    fn other(&self) -> &'static Form {
        if self.kind == Old {
            &FORMS[1]
        } else {
            &FORMS[0]
        }
    }

    /// The start of a block, zeros, its ending and a sum.
    fn block(&self, start: &[u8], sum: u16) -> Vec<u8> {
        let mut block = start.to_vec();
        block.resize(ENDING, 0);
        block.extend_from_slice(&self.ending);
        block.extend_from_slice(&sum.to_le_bytes());
        block
    }

    /// The index in blocks of this kind of a sheet of so many records.
    fn index_of(&self, records: usize) -> Vec<u8> {
        index_build_of_kind(self.kind, &sheet_of(records), 1999, usize::MAX).unwrap()
    }

    /// A full block, and one of one entry.
    fn full_and_one(&self) -> Vec<u8> {
        self.index_of(self.full + 1)
    }
}

/// Sheet P's index in old blocks. The place is 452, and the sum 1 + 196 + 1 + 2.
fn old_index_p() -> Vec<u8> {
    FORMS[0].block(&[0, 0, 1, 0, 0, 0, 0, 0, 0xC4, 1, 0, 2], 200)
}

/// The same in new blocks, whose ending adds 1 to the sum.
fn new_index_p() -> Vec<u8> {
    FORMS[1].block(&[0, 0, 1, 0, 0, 0, 0, 0, 0xC4, 1, 0, 0, 2], 201)
}

/// A sheet of so many records of 36 bytes; the first has code 1.
fn sheet_of(records: usize) -> Vec<u8> {
    sheet_with(&(1..=records as u32).map(|code| coded(code, 2)).collect::<Vec<_>>())
}

/// Puts the sum of the block at this place right.
fn put_right(mut index: Vec<u8>, at: usize) -> Vec<u8> {
    let sum: u64 = index[at..at + SUM].iter().map(|&byte| u64::from(byte)).sum();
    index[at + SUM..at + BLOCK].copy_from_slice(&((sum % 65536) as u16).to_le_bytes());
    index
}

/// The index with these two bytes before the sum of the block at a place, which
/// is put right.
fn with_ending(mut index: Vec<u8>, at: usize, ending: [u8; 2]) -> Vec<u8> {
    index[at + ENDING..at + SUM].copy_from_slice(&ending);
    put_right(index, at)
}

/// The refusal of an index, which no room changes.
fn refusal_of(index: &[u8]) -> Refusal {
    let refusal = index_check(index).unwrap_err();
    for room in [0, ROOM] {
        assert_eq!(index_read(index, room), Err(refusal));
        assert_eq!(index_select(index, 1, room), Err(refusal));
    }
    refusal
}

fn is_bad(index: &[u8], place: usize) {
    assert_eq!(refusal_of(index), refused(18, place as u64));
}

#[test]
fn an_empty_sheet_has_no_blocks() {
    assert_eq!(index_build(&sheet_e(), 1999, 0), Ok(vec![]));
    assert_eq!(index_build_of_kind(Old, &sheet_e(), 1999, 0), Ok(vec![]));
    assert_eq!(index_check(&[]), Ok(Index { entries: 0, blocks: 0 }));
    assert_eq!((index_read(&[], 0), index_select(&[], 0, 0)), (Ok(vec![]), Ok(vec![])));
    assert_eq!(select(&sheet_e(), 1999, 0, 0), Ok(vec![]));
}

#[test]
fn the_index_of_p() {
    assert_eq!(index_build(&sheet_p(), 1999, BLOCK), Ok(new_index_p()));
    assert_eq!(index_build_of_kind(New, &sheet_p(), 1999, BLOCK), Ok(new_index_p()));
    assert_eq!(index_build_of_kind(Old, &sheet_p(), 1999, BLOCK), Ok(old_index_p()));
    for index in [old_index_p(), new_index_p()] {
        assert_eq!(index_check(&index), Ok(Index { entries: 1, blocks: 1 }));
        assert_eq!(index_read(&index, 3), Ok(vec![0, 452, 2]));
        assert_eq!(index_select(&index, 0, 3), Ok(vec![0, 452, 2]));
        assert_eq!(index_select(&index, 1, 0), Ok(vec![]));
    }
    assert_eq!(select(&sheet_p(), 1999, 0, 3), Ok(vec![0, 452, 2]));
    assert_eq!(select(&sheet_p(), 1999, 1, 0), Ok(vec![]));
}

/// P's record, and a multipolygon of localisation 5 at 488. The multipolygon's
/// bit is no localisation.
#[test]
fn the_index_of_two_records() {
    let sheet = sheet_with(&[coded(0xFFFF_FFFF, 1), coded(0x0403_0201, 0x15)]);
    // 2, then 1020 + 196 + 1 + 1, then 10 + 232 + 1 + 5; and 1 for the new kind.
    let start = [0, 0, 2, 0, 0xFF, 0xFF, 0xFF, 0xFF, 0xC4, 1, 0, 1, 1, 2, 3, 4, 0xE8, 1, 0, 5];
    let old = FORMS[0].block(&start, 1468);
    let start = [0, 0, 2, 0, 0xFF, 0xFF, 0xFF, 0xFF, 0xC4, 1, 0, 0, 1, 1, 2, 3, 4, 0xE8, 1, 0, 0, 5];
    let new = FORMS[1].block(&start, 1469);
    assert_eq!(index_build_of_kind(Old, &sheet, 2016, BLOCK), Ok(old.clone()));
    assert_eq!(index_build(&sheet, 2016, BLOCK), Ok(new.clone()));
    for index in [old, new] {
        assert_eq!(index_read(&index, 6), Ok(vec![0xFFFF_FFFF, 452, 1, 0x0403_0201, 488, 5]));
        assert_eq!(index_select(&index, 0x0403_0201, 3), Ok(vec![1, 488, 5]));
    }
    assert_eq!(select(&sheet, 2016, 0x0403_0201, 3), Ok(vec![1, 488, 5]));
    assert_eq!(select(&sheet, 2016, u32::MAX, 3), Ok(vec![0, 452, 1]));
    // The sheet's own refusals, whatever the room.
    for room in [0, ROOM] {
        for kind in [Old, New] {
            assert_eq!(index_build_of_kind(kind, &sheet, 2015, room), Err(too_new(508, 2016)));
            assert_eq!(index_build_of_kind(kind, &sheet, 2005, room), Err(refused(16, 0)));
            assert_eq!(index_build_of_kind(kind, &sheet[..520], 2016, room), Err(refused(5, 12)));
        }
        assert_eq!(select(&sheet, 2015, 1, room), Err(too_new(508, 2016)));
        assert_eq!(select(&sheet, 2005, 1, room), Err(refused(16, 0)));
        assert_eq!(select(&sheet[..520], 2016, 1, room), Err(refused(5, 12)));
    }
}

#[test]
fn blocks_are_full_except_the_last() {
    for form in &FORMS {
        let full = form.full;
        for counts in [&[1][..], &[full - 1], &[full], &[full, 1], &[full, full], &[full, full, 1], &[full, full, full, 1]] {
            let records = counts.iter().sum::<usize>();
            let sheet = sheet_of(records);
            let index = index_build_of_kind(form.kind, &sheet, 1999, BLOCK * counts.len()).unwrap();
            assert_eq!(index.len(), BLOCK * counts.len());
            for (number, (block, &count)) in index.chunks(BLOCK).zip(counts).enumerate() {
                assert_eq!(block[..4], [number as u8, 0, count as u8, 0]);
                let first = (full * number + 1) as u8;
                assert_eq!(block[4..8], [first, 0, 0, 0]);
                let unused = ENTRIES + form.entry * count;
                assert!(block[unused..ENDING].iter().all(|&byte| byte == 0));
                assert_eq!(block[ENDING..SUM], form.ending);
            }
            let entries = records as u64;
            assert_eq!(index_check(&index), Ok(Index { entries, blocks: counts.len() as u64 }));
            let numbers: Vec<u64> = (0..entries).flat_map(|record| [record + 1, 452 + 36 * record, 2]).collect();
            assert_eq!(index_read(&index, 3 * records), Ok(numbers));
            assert_eq!(index_build_of_kind(form.kind, &sheet, 1999, index.len() - 1), Err(refused(15, 0)));
            assert_eq!(index_read(&index, 3 * records - 1), Err(refused(15, 0)));
        }
    }
}

/// Both kinds of one sheet have the same entries, and give the same hits.
#[test]
fn old_blocks_say_what_new_ones_say() {
    for records in [1, 55, 56, 57, 62, 63, 64, 112, 113, 126, 127, 190] {
        let codes = (0..records as u32).map(|number| coded(number % 5, (number % 6) as u8));
        let sheet = sheet_with(&codes.collect::<Vec<_>>());
        let old = index_build_of_kind(Old, &sheet, 1999, ROOM).unwrap();
        let new = index_build(&sheet, 1999, ROOM).unwrap();
        assert_eq!(index_read(&old, ROOM), index_read(&new, ROOM));
        for code in 0..6 {
            let from_sheet = select(&sheet, 1999, code, ROOM);
            assert_eq!((index_select(&old, code, ROOM), index_select(&new, code, ROOM)), (from_sheet.clone(), from_sheet));
        }
    }
}

/// 504 bytes of 255, a count of 63 or 56, and the ending: 128583 and 128577,
/// which is 65536 and 63047, or 63041.
#[test]
fn the_sum_is_taken_modulo_65536() {
    for (form, sum) in FORMS.iter().zip([63047, 63041]) {
        let mut start = vec![0, 0, form.full as u8, 0];
        start.resize(ENDING, 0xFF);
        let index = form.block(&start, sum);
        assert_eq!(index_read(&index, ROOM), Ok([0xFFFF_FFFF, form.most, 255].repeat(form.full)));
    }
}

/// Each bit of a place is read in its own kind: of three bytes, or of four.
#[test]
fn bits_of_places() {
    for form in &FORMS {
        for bit in 0..form.most.count_ones() {
            let place = 1u64 << bit;
            let mut start = vec![0, 0, 1, 0, 7, 0, 0, 0];
            start.extend_from_slice(&place.to_le_bytes()[..form.entry - 5]);
            start.push(3);
            let index = put_right(form.block(&start, 0), 0);
            assert_eq!(index_read(&index, 3), Ok(vec![7, place, 3]));
            assert_eq!(index_select(&index, 7, 3), Ok(vec![0, place, 3]));
        }
    }
}

/// A sheet whose second and last record, of code 7, is at this place. The first
/// has points of four bytes up to there, of which a whole number must fit.
fn sheet_with_record_at(place: usize) -> Vec<u8> {
    let metric = place - 452 - 32;
    assert_eq!(metric % 4, 0);
    let points = (metric / 4) as u32;
    let mut sheet = sheet_with(&[record([2, 0, 0], points, 0, 65535, &[], &[])]);
    sheet.reserve_exact(metric + 36);
    sheet[456..460].copy_from_slice(&(metric as u32 + 32).to_le_bytes());
    sheet[460..464].copy_from_slice(&(metric as u32).to_le_bytes());
    sheet.resize(place, 0);
    sheet.extend_from_slice(&coded(7, 0));
    sheet[440] = 2;
    summed(sheet)
}

/// About the most that three bytes hold, and the last record of a sheet of the
/// limit. An old block cannot say where the later ones are.
#[test]
fn places_past_three_bytes() {
    let most = 1 << 24;
    for (place, stored) in
        [(most - 4, [0xFC, 0xFF, 0xFF, 0]), (most, [0, 0, 0, 1]), (most + 4, [4, 0, 0, 1]), (LIMIT - 36, [0xDC, 0xFF, 0xFF, 3])]
    {
        let sheet = sheet_with_record_at(place);
        let index = index_build(&sheet, 2004, BLOCK).unwrap();
        assert_eq!(index[13..22], [&[7, 0, 0, 0], &stored[..], &[0]].concat());
        let hit = Ok(vec![1, place as u64, 0]);
        assert_eq!((index_select(&index, 7, 3), select(&sheet, 2004, 7, 3)), (hit.clone(), hit.clone()));
        let old = index_build_of_kind(Old, &sheet, 2004, BLOCK).unwrap();
        assert_eq!(index_select(&old, 7, 3) == hit, place < most);
    }
}

#[test]
fn hits_follow_record_order() {
    let records: Vec<Vec<u8>> = (0..130u32).map(|number| coded(number % 3, (number % 6) as u8)).collect();
    let sheet = sheet_with(&records);
    for form in &FORMS {
        let index = index_build_of_kind(form.kind, &sheet, 1999, 3 * BLOCK).unwrap();
        for code in 0..3 {
            let picks: Vec<u64> =
                (0..130).filter(|number| number % 3 == code).flat_map(|number| [number, 452 + 36 * number, number % 6]).collect();
            let (code, length) = (code as u32, picks.len());
            assert_eq!(index_select(&index, code, length), Ok(picks.clone()));
            assert_eq!(select(&sheet, 1999, code, length), Ok(picks));
            assert_eq!(index_select(&index, code, length - 1), Err(refused(15, 0)));
            assert_eq!(select(&sheet, 1999, code, length - 1), Err(refused(15, 0)));
        }
        assert_eq!((index_select(&index, 3, 0), select(&sheet, 1999, 3, 0)), (Ok(vec![]), Ok(vec![])));
    }
}

/// With the sum put right.
#[test]
fn numbers_and_counts() {
    for form in &FORMS {
        for (at, count, good) in [(0, form.full, form.full..=form.full), (BLOCK, 1, 1..=form.full)] {
            for other in (0..=130u16).chain([191, 255, 256, 257, 312, 319, 0x3800, 0x3F00, 65535]) {
                let mut index = form.full_and_one();
                index[at + COUNT..at + 4].copy_from_slice(&other.to_le_bytes());
                let index = put_right(index, at);
                if good.contains(&usize::from(other)) {
                    // Entries of zeros are entries as any other.
                    let entries = form.full as u64 + 1 + u64::from(other) - count as u64;
                    assert_eq!(index_check(&index), Ok(Index { entries, blocks: 2 }));
                } else {
                    is_bad(&index, at);
                }
            }
            for other in [2u16, 3, 255, 256, 257, 65535] {
                let mut index = form.full_and_one();
                index[at..at + COUNT].copy_from_slice(&other.to_le_bytes());
                is_bad(&put_right(index, at), at);
            }
        }
    }
}

#[test]
fn each_unused_byte_is_zero() {
    for form in &FORMS {
        for at in 0..BLOCK {
            let mut index = form.full_and_one();
            index[BLOCK + at] ^= 0x40;
            // Where the sum is put right, the entry may be any.
            let sum_wrong = refusal_of(&index);
            assert_eq!(sum_wrong, refused(18, BLOCK as u64));
            let index = put_right(index, BLOCK);
            if at >= SUM || (ENTRIES..ENTRIES + form.entry).contains(&at) {
                assert!(index_check(&index).is_ok());
            } else {
                is_bad(&index, BLOCK);
            }
        }
        // Of a full block only the ending is none of an entry.
        for at in 4..SUM {
            let mut index = form.full_and_one();
            index[at] ^= 2;
            let index = put_right(index, 0);
            if at < ENDING {
                assert!(index_check(&index).is_ok());
            } else {
                is_bad(&index, 0);
            }
        }
        // The last entry ends where the ending begins.
        let mut index = form.full_and_one();
        index[ENDING - 1] = 9;
        assert_eq!(index_read(&put_right(index, 0), ROOM).unwrap()[3 * form.full - 1], 9);
    }
}

#[test]
fn sums() {
    for form in &FORMS {
        for at in [0, BLOCK] {
            let index = form.full_and_one();
            let sum = u16::from_le_bytes([index[at + SUM], index[at + SUM + 1]]);
            let with_itself = sum + (sum & 0xFF) + (sum >> 8);
            for other in [0, sum + 1, sum - 1, sum ^ 0x100, sum ^ 0x8000, !sum, sum.swap_bytes(), with_itself] {
                let mut index = index.clone();
                index[at + SUM..at + BLOCK].copy_from_slice(&other.to_le_bytes());
                is_bad(&index, at);
            }
        }
    }
}

/// A piece at the end is a block of wrong length, and the one before it is not
/// the last.
#[test]
fn lengths() {
    for form in &FORMS {
        let index = form.full_and_one();
        for length in 1..BLOCK {
            is_bad(&index[..length], 0);
            is_bad(&index[..BLOCK + length], BLOCK);
            let longer = [&index[..], &index[..length]].concat();
            is_bad(&longer, BLOCK);
        }
        assert!(index_check(&index[..BLOCK]).is_ok());
        let full = form.index_of(2 * form.full);
        is_bad(&[&full[..], &[0]].concat(), 2 * BLOCK);
        is_bad(&[&full[..], &[0; BLOCK]].concat(), 2 * BLOCK);
    }
}

/// "blocks in order": the first that is bad.
#[test]
fn blocks_have_an_order() {
    for form in &FORMS {
        let records = 3 * form.full + 1;
        let index = form.index_of(records);
        let blocks: Vec<&[u8]> = index.chunks(BLOCK).collect();
        let of = |numbers: &[usize]| numbers.iter().map(|&number| blocks[number]).collect::<Vec<_>>().concat();
        assert_eq!(index_check(&of(&[0, 1, 2, 3])), Ok(Index { entries: records as u64, blocks: 4 }));
        assert_eq!(index_check(&of(&[0, 1, 2])), Ok(Index { entries: records as u64 - 1, blocks: 3 }));
        for (numbers, bad) in [
            (&[1, 0, 2, 3][..], 0),
            (&[0, 2, 1, 3], 1),
            (&[0, 1, 3, 2], 2),
            (&[1, 2, 3], 0),
            (&[0, 2, 3], 1),
            (&[0, 1, 3], 2),
            (&[0, 0, 1, 2, 3], 1),
            (&[0, 1, 2, 2, 3], 3),
            (&[0, 1, 2, 3, 3], 3),
            (&[3], 0),
        ] {
            is_bad(&of(numbers), BLOCK * bad);
        }
        let mut all = vec![9; 4 * BLOCK];
        is_bad(&all, 0);
        for mended in 0..4 {
            is_bad(&all, BLOCK * mended);
            all[BLOCK * mended..][..BLOCK].copy_from_slice(blocks[mended]);
        }
        assert_eq!(all, index);
    }
}

/// Two bytes number 65536 blocks, and no more.
#[test]
fn blocks_that_two_bytes_number() {
    for form in &FORMS {
        let (full, ending) = (form.full as u8, u16::from(form.ending[0]));
        let numbered = |number: u16| {
            let [low, high] = number.to_le_bytes();
            form.block(&[low, high, full], u16::from(full) + u16::from(low) + u16::from(high) + ending)
        };
        let mut index = Vec::with_capacity(65537 * BLOCK);
        (0..=u16::MAX).for_each(|number| index.extend_from_slice(&numbered(number)));
        assert_eq!(index_check(&index), Ok(Index { entries: 65536 * form.full as u64, blocks: 65536 }));
        let end = index.len();
        index.extend_from_slice(&numbered(0));
        assert_eq!(index_check(&index), Err(refused(18, end as u64)));
    }
}

/// "18 also for mixed kinds": at each block of an index a whole block of the
/// other kind, of the right number, full or of one entry.
#[test]
fn mixed_kinds() {
    for form in &FORMS {
        let other = form.other();
        for count in [1, other.full] {
            let alone = other.index_of(count);
            for at in [0, BLOCK, 2 * BLOCK] {
                let mut index = form.index_of(2 * form.full + 1);
                index[at..at + BLOCK].copy_from_slice(&alone);
                index[at] = (at / BLOCK) as u8;
                let index = put_right(index, at);
                // The first block tells the kind of the file. Where it is right, which asks that it is full, the
                // next is of another.
                is_bad(&index, if at == 0 && count == other.full { BLOCK } else { at });
            }
        }
        // Alone they are read, each in its own kind.
        let (own, others) = (form.index_of(7), other.index_of(7));
        assert_eq!(index_read(&own, ROOM), index_read(&others, ROOM));
    }
}

/// Only the ending says that a block is of the other kind.
#[test]
fn a_block_with_the_ending_of_the_other_kind() {
    for form in &FORMS {
        let other = form.other().ending;
        let index = form.index_of(2 * form.full + 1);
        for at in [BLOCK, 2 * BLOCK] {
            is_bad(&with_ending(index.clone(), at, other), at);
        }
        // A block of one entry of zeros has the same bytes in both kinds, but for its ending and its sum.
        let zeros = put_right(form.block(&[0, 0, 1], 0), 0);
        assert_eq!(index_read(&zeros, 3), Ok(vec![0; 3]));
        assert_eq!(index_read(&with_ending(zeros.clone(), 0, other), 3), Ok(vec![0; 3]));
        let mut two = [&index[..BLOCK], &zeros].concat();
        two[BLOCK] = 1;
        let two = put_right(two, BLOCK);
        assert_eq!(index_check(&two), Ok(Index { entries: form.full as u64 + 1, blocks: 2 }));
        is_bad(&with_ending(two, BLOCK, other), BLOCK);
    }
    // Old blocks whose first has the new ending: its count is over the full one.
    let old = FORMS[0].index_of(2 * 63 + 1);
    is_bad(&with_ending(old, 0, [1, 0]), 0);
    // New ones whose first has the old ending: it is not full, and not the last.
    let new = FORMS[1].index_of(2 * 56 + 1);
    is_bad(&with_ending(new, 0, [0, 0]), 0);
}

/// Two bytes that are of neither kind are refused at their block, and at the
/// first block of a file.
#[test]
fn endings_of_neither_kind() {
    for form in &FORMS {
        let index = form.index_of(2 * form.full + 1);
        for number in (2..=u16::MAX).filter(|number| *number < 600 || number % 251 == 0 || number & 0xFF < 2) {
            for at in [0, BLOCK, 2 * BLOCK] {
                let index = with_ending(index.clone(), at, number.to_le_bytes());
                assert_eq!(index_check(&index), Err(refused(18, at as u64)));
            }
        }
        // Blocks in order.
        let both = with_ending(with_ending(index.clone(), BLOCK, [0, 1]), 0, [1, 1]);
        is_bad(&both, 0);
        is_bad(&with_ending(both, 0, form.ending), BLOCK);
    }
}

/// 56, 57, 63 and 64 entries in a block that is alone, the last, or not the last.
#[test]
fn counts_of_both_kinds() {
    for form in &FORMS {
        for (count, fits) in [(56, true), (57, form.full == 63), (63, form.full == 63), (64, false)] {
            let start = [0, 0, count, 0, 5];
            let alone = put_right(form.block(&start, 0), 0);
            match fits {
                true => assert_eq!(index_check(&alone), Ok(Index { entries: count.into(), blocks: 1 })),
                false => is_bad(&alone, 0),
            }
            let mut after = [&form.index_of(form.full)[..], &alone].concat();
            after[BLOCK] = 1;
            let after = put_right(after, BLOCK);
            match fits {
                true => assert_eq!(index_check(&after).map(|index| index.entries), Ok((form.full + usize::from(count)) as u64)),
                false => is_bad(&after, BLOCK),
            }
            // Where it is not the last it must be full.
            let mut before = [&alone[..], &form.index_of(1)].concat();
            before[BLOCK] = 1;
            let before = put_right(before, BLOCK);
            assert_eq!(index_check(&before).is_ok(), usize::from(count) == form.full);
        }
    }
}
