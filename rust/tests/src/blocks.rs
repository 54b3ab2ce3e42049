//! Blocks of a code index, old and new: where their fields stand, what can be
//! wrong with them, and indexes made of entries that may be any.
//!
//! "Keep a file of 512-byte blocks: block number from 0 (2 bytes), entry count
//! (2), 63 entries of 8 bytes (class code 4, record place 3, localisation 1),
//! two zero bytes, and the sum of the first 510 bytes modulo 65536" (document
//! 02, request 3). "New blocks carry 56 entries of 9 bytes with a 4-byte place,
//! and their two bytes before the sum hold 1 and 0 in place of zeros" (request
//! 7).

use crate::numbers::Numbers;
use second::BlockKind::{self, New, Old};
use std::ops::Range;
use sxf_sys::fields::Field;
use sxf_sys::index::{BLOCK_FULL, BLOCK_SIZE};

/// The kinds of blocks.
pub const KINDS: [BlockKind; 2] = [Old, New];

/// How many entries a full block has that is old.
pub const OLD_FULL: usize = 63;

/// The fields of a block, counted from its first byte. The ending tells its
/// kind.
pub const NUMBER: Field = Field::new(0, 2);
pub const COUNT: Field = Field::new(NUMBER.after(), 2);
pub const ENTRIES: Field = Field::new(COUNT.after(), 504);
pub const ENDING: Field = Field::new(ENTRIES.after(), 2);
pub const SUM: Field = Field::new(ENDING.after(), 2);

/// The fields of an entry, counted from its first byte; its last is the
/// localisation.
pub const CODE: Field = Field::new(0, 4);
const OLD_PLACE: Field = Field::new(CODE.after(), 3);
const NEW_PLACE: Field = Field::new(CODE.after(), 4);

// Full blocks of either kind have no byte between their entries and their ending.
const _: () = assert!(SUM.after() == BLOCK_SIZE);
const _: () = assert!(OLD_FULL * (OLD_PLACE.after() + 1) == ENTRIES.width);
const _: () = assert!(BLOCK_FULL * (NEW_PLACE.after() + 1) == ENTRIES.width);

/// How many entries a full block of a kind has.
pub const fn full(kind: BlockKind) -> usize {
    match kind {
        Old => OLD_FULL,
        New => BLOCK_FULL,
    }
}

/// Where the place stands in an entry of a kind.
pub const fn place(kind: BlockKind) -> Field {
    match kind {
        Old => OLD_PLACE,
        New => NEW_PLACE,
    }
}

/// The bytes of an entry of a kind.
pub const fn entry_size(kind: BlockKind) -> usize {
    place(kind).after() + 1
}

/// The ending of a kind as one number, whose bytes are 0 and 0 or 1 and 0.
pub const fn ending(kind: BlockKind) -> usize {
    match kind {
        Old => 0,
        New => 1,
    }
}

/// The kind that a kind is not.
pub const fn other(kind: BlockKind) -> BlockKind {
    match kind {
        Old => New,
        New => Old,
    }
}

/// What a block is refused for: "a wrong length, number, count, filling or
/// sum", "also for mixed kinds".
#[derive(Clone, Copy, PartialEq, Eq, PartialOrd, Ord, Debug)]
pub enum Fault {
    Length,
    Number,
    /// A count of 0.
    NoEntries,
    /// A count that is not full, in a block that is not the last.
    NotFull,
    /// A count over the full one.
    OverFull,
    /// A byte of an unused entry that is not zero.
    Unused,
    /// An ending of neither kind.
    Ending,
    /// The ending of the kind that the first block is not.
    OtherKind,
    Sum,
}

/// Where a block stands among the others. A piece of a block at the end is one.
#[derive(Clone, Copy, PartialEq, Eq, PartialOrd, Ord, Debug)]
pub enum Stands {
    Alone,
    First,
    Inner,
    Last,
}

/// The number that a field of a block has.
pub fn number_at(block: &[u8], field: Field) -> usize {
    block[field.range()].iter().rev().fold(0, |number, &byte| number << 8 | usize::from(byte))
}

/// Stores the low bytes of a number in a field of a block.
pub fn put(block: &mut [u8], field: Field, number: usize) {
    block[field.range()].copy_from_slice(&number.to_le_bytes()[..field.width]);
}

/// The sum of the bytes before a place of the block.
pub fn sum_before(block: &[u8], end: usize) -> usize {
    block[..end].iter().map(|&byte| usize::from(byte)).sum()
}

/// Puts a block's sum right.
pub fn put_sum_right(block: &mut [u8]) {
    let sum = sum_before(block, SUM.place);
    put(block, SUM, sum);
}

/// The places of the block with this number, and of the piece, if it is one.
pub fn block_range(index: &[u8], number: usize) -> Range<usize> {
    let start = BLOCK_SIZE * number;
    start..index.len().min(start + BLOCK_SIZE)
}

/// How many blocks an index has, with the piece at its end.
pub fn block_count(index: &[u8]) -> usize {
    index.len().div_ceil(BLOCK_SIZE)
}

/// The kind of an index, which its first block tells; none if that is a piece or
/// of neither kind.
pub fn kind_of(index: &[u8]) -> Option<BlockKind> {
    let first = index.get(..BLOCK_SIZE)?;
    KINDS.into_iter().find(|&kind| number_at(first, ENDING) == ending(kind))
}

/// Where in a block of a kind the entries end that its count says are used.
pub fn used(kind: BlockKind, block: &[u8]) -> usize {
    ENTRIES.place + entry_size(kind) * number_at(block, COUNT).min(full(kind))
}

/// The place in the last entry of an index of a kind that is right; none if it
/// has no entries.
pub fn last_place(kind: BlockKind, index: &[u8]) -> Option<usize> {
    let last = index.chunks(BLOCK_SIZE).last()?;
    Some(number_at(last, place(kind).at(used(kind, last) - entry_size(kind))))
}

/// Where a block stands in its index.
pub fn stands(index: &[u8], number: usize) -> Stands {
    match (number == 0, number + 1 == block_count(index)) {
        (true, true) => Stands::Alone,
        (true, false) => Stands::First,
        (false, false) => Stands::Inner,
        (false, true) => Stands::Last,
    }
}

/// All that is wrong with a block. In an index of neither kind it cannot be told
/// how many entries are too few or too many, or which bytes are of none.
pub fn faults(index: &[u8], number: usize) -> Vec<Fault> {
    let block = &index[block_range(index, number)];
    if block.len() < BLOCK_SIZE {
        return vec![Fault::Length];
    }
    let (count, block_ending) = (number_at(block, COUNT), number_at(block, ENDING));
    let mut found = vec![
        (Fault::Number, number_at(block, NUMBER) != number),
        (Fault::NoEntries, count == 0),
        (Fault::Ending, KINDS.into_iter().all(|kind| block_ending != ending(kind))),
        (Fault::Sum, number_at(block, SUM) != sum_before(block, SUM.place) % (1 << 16)),
    ];
    if let Some(kind) = kind_of(index) {
        let is_last = number + 1 == block_count(index);
        let unused = &block[used(kind, block)..ENDING.place];
        found.extend([
            (Fault::NotFull, (1..full(kind)).contains(&count) && !is_last),
            (Fault::OverFull, count > full(kind)),
            (Fault::Unused, unused.iter().any(|&byte| byte != 0)),
            (Fault::OtherKind, block_ending == ending(other(kind))),
        ]);
    }
    found.into_iter().filter(|&(_, is_so)| is_so).map(|(fault, _)| fault).collect()
}

/// What an entry says of a record.
#[derive(Clone, Copy, PartialEq, Eq, Debug)]
pub struct Entry {
    pub code: u32,
    pub place: u32,
    pub localisation: u8,
}

impl Entry {
    /// An entry whose bytes are all the same.
    pub const fn of_all(byte: u8) -> Entry {
        Entry { code: u32::from_le_bytes([byte; 4]), place: u32::from_le_bytes([byte; 4]), localisation: byte }
    }

    /// Stores it in its kind; of the place an old entry has the low three bytes.
    fn store(self, kind: BlockKind, entry: &mut [u8]) {
        put(entry, CODE, self.code as usize);
        put(entry, place(kind), self.place as usize);
        entry[place(kind).after()] = self.localisation;
    }
}

/// The index in blocks of a kind that has these entries.
pub fn index_of(kind: BlockKind, entries: &[Entry]) -> Vec<u8> {
    let blocks = entries.chunks(full(kind)).enumerate();
    blocks.map(|(number, entries)| block_of(kind, number, entries)).collect::<Vec<_>>().into_flattened()
}

/// The block of a kind that has these entries, at most as many as it holds.
pub fn block_of(kind: BlockKind, number: usize, entries: &[Entry]) -> [u8; BLOCK_SIZE] {
    let mut block = [0; BLOCK_SIZE];
    put(&mut block, NUMBER, number);
    put(&mut block, COUNT, entries.len());
    for (stored, entry) in block[ENTRIES.range()].chunks_exact_mut(entry_size(kind)).zip(entries) {
        entry.store(kind, stored);
    }
    put(&mut block, ENDING, ending(kind));
    put_sum_right(&mut block);
    block
}

/// So many entries with these codes: the place and the localisation may be any,
/// and now and then all of an entry is zero, or all ones.
pub fn entries(numbers: &mut Numbers, codes: &[u32], count: usize) -> Vec<Entry> {
    let of_all = numbers.pick(&[None, None, None, Some(0), Some(0xFF)]);
    let mut entry = || {
        if let (Some(byte), true) = (of_all, numbers.chance(7, 8)) {
            return Entry::of_all(byte);
        }
        let (place, localisation) = (numbers.any() as u32, numbers.byte());
        Entry { code: numbers.pick(codes), place, localisation }
    };
    (0..count).map(|_| entry()).collect()
}

#[cfg(test)]
mod tests {
    use super::*;

    /// Two full blocks of a kind and one of two entries.
    fn index(kind: BlockKind) -> Vec<u8> {
        index_of(kind, &vec![Entry::of_all(7); 2 * full(kind) + 2])
    }

    #[test]
    fn an_index_of_entries_is_right() {
        for kind in KINDS {
            let index = index(kind);
            assert_eq!((index.len(), block_count(&index)), (3 * BLOCK_SIZE, 3));
            let stand = [0, 1, 2].map(|number| (stands(&index, number), faults(&index, number)));
            assert_eq!(stand, [(Stands::First, vec![]), (Stands::Inner, vec![]), (Stands::Last, vec![])]);
            assert_eq!(stands(&index[..BLOCK_SIZE], 0), Stands::Alone);
            assert_eq!(block_count(&index[..BLOCK_SIZE + 1]), 2);
            assert_eq!((kind_of(&index), kind_of(&index[..BLOCK_SIZE - 1])), (Some(kind), None));
            assert!(index_of(kind, &[]).is_empty());
        }
    }

    #[test]
    fn a_place_has_three_bytes_or_four() {
        let entry = Entry { code: 0x0403_0201, place: 0x0807_0605, localisation: 9 };
        let start = |kind| block_of(kind, 0, &[entry])[ENTRIES.range()][..10].to_vec();
        assert_eq!(start(Old), [1, 2, 3, 4, 5, 6, 7, 9, 0, 0]);
        assert_eq!(start(New), [1, 2, 3, 4, 5, 6, 7, 8, 9, 0]);
        let last = |kind| last_place(kind, &index_of(kind, &[Entry::of_all(7), entry]));
        assert_eq!((last(Old), last(New), last_place(New, &[])), (Some(0x07_0605), Some(0x0807_0605), None));
    }

    #[test]
    fn one_fault_is_told_from_another() {
        for kind in KINDS {
            let with = |number: usize, alter: &dyn Fn(&mut [u8])| {
                let mut index = index(kind);
                let block = &mut index[BLOCK_SIZE * number..][..BLOCK_SIZE];
                alter(block);
                put_sum_right(block);
                faults(&index, number)
            };
            for number in 0..3 {
                assert_eq!(with(number, &|block| put(block, NUMBER, 3)), [Fault::Number]);
                assert_eq!(with(number, &|block| put(block, COUNT, full(kind) + 1)), [Fault::OverFull]);
                assert_eq!(with(number, &|block| block[ENTRIES.place] = 1), []);
                assert_eq!(with(number, &|block| block[COUNT.place..ENDING.place].fill(0)), [Fault::NoEntries]);
                for neither in [2, 0x100, 0x101, 0xFFFF] {
                    assert_eq!(with(number, &|block| put(block, ENDING, neither)), [Fault::Ending]);
                }
            }
            for number in 1..3 {
                assert_eq!(with(number, &|block| put(block, ENDING, ending(other(kind)))), [Fault::OtherKind]);
            }
            assert_eq!(with(1, &|block| put(block, COUNT, full(kind) - 1)), [Fault::NotFull, Fault::Unused]);
            assert_eq!(with(2, &|block| put(block, COUNT, 1)), [Fault::Unused]);
            assert_eq!(with(2, &|block| block[ENDING.place - 1] = 1), [Fault::Unused]);
            let mut index = index(kind);
            index[SUM.place] ^= 1;
            assert_eq!(faults(&index, 0), [Fault::Sum]);
            assert_eq!(faults(&index[..BLOCK_SIZE + 1], 1), [Fault::Length]);
            assert_eq!(faults(&index[..3 * BLOCK_SIZE - 1], 2), [Fault::Length]);
        }
    }

    /// 504 bytes of 255, and 63: 128583, which is 65536 and 63047. New blocks have
    /// 7 entries fewer and an ending of 1.
    #[test]
    fn the_sum_is_taken_modulo_65536() {
        for (kind, sum) in [(Old, 63047), (New, 63041)] {
            let block = block_of(kind, 0, &vec![Entry::of_all(0xFF); full(kind)]);
            assert_eq!(number_at(&block, SUM), sum);
        }
    }
}
