//! A code index beside the sheet: built, checked, read, and selected from.
//!
//! Document 02, request 3: "Customers pick all wells or all fences. Keep a file
//! of 512-byte blocks: block number from 0 (2 bytes), entry count (2), 63
//! entries of 8 bytes (class code 4, record place 3, localisation 1), two zero
//! bytes, and the sum of the first 510 bytes modulo 65536." Request 7: "new
//! blocks carry 56 entries of 9 bytes with a 4-byte place, and their two bytes
//! before the sum hold 1 and 0 in place of zeros. Old blocks stay readable, a
//! file holds one kind only, and new ones are always written in the new kind."

use crate::bytes::{low_bytes, put, u16_at, u32_at};
use crate::record::{Listener, Record};
use crate::refusal::{require, Refusal};
use crate::sheet::read_sheet;

/// Bytes of a block.
const BLOCK: usize = 512;

/// Where the fields of a block stand. The two bytes before the sum tell its
/// kind.
const NUMBER: usize = 0;
const COUNT: usize = 2;
const ENTRIES: usize = 4;
const ENDING: usize = 508;
const SUM: usize = 510;

/// Where code and place stand in an entry; the localisation is its last byte.
const CODE: usize = 0;
const PLACE: usize = 4;

/// "Byte 20: bits 0-3 localisation" (document 01, "Record"): the bits of the
/// reference number, whose lowest byte that is.
const LOCALISATION_BITS: u64 = 0x0F;

/// What an index has.
#[derive(Clone, Copy, PartialEq, Eq, Debug)]
pub struct Index {
    /// How many entries.
    pub entries: u64,
    /// How many blocks.
    pub blocks: u64,
}

/// The two kinds of blocks.
#[derive(Clone, Copy, PartialEq, Eq, PartialOrd, Ord, Debug)]
pub enum BlockKind {
    /// With a place of three bytes, as request 3 has them.
    Old,
    /// With a place of four bytes, as request 7 has them.
    New,
}

impl BlockKind {
    /// Entries of a full block.
    fn full(self) -> usize {
        match self {
            BlockKind::Old => 63,
            BlockKind::New => 56,
        }
    }

    /// Where the localisation stands in an entry, after the place.
    fn localisation(self) -> usize {
        match self {
            BlockKind::Old => PLACE + 3,
            BlockKind::New => PLACE + 4,
        }
    }

    /// Bytes of an entry.
    fn entry(self) -> usize {
        self.localisation() + 1
    }

    /// The two bytes before the sum.
    fn ending(self) -> [u8; 2] {
        match self {
            BlockKind::Old => [0, 0],
            BlockKind::New => [1, 0],
        }
    }

    /// "A file holds one kind only", and so its first block tells its kind; none
    /// if that block is of neither or is cut before it tells.
    fn of_file(index: &[u8]) -> Option<BlockKind> {
        let ending = index.get(ENDING..SUM)?;
        [BlockKind::Old, BlockKind::New].into_iter().find(|kind| kind.ending() == ending)
    }
}

/// What an index says of a record.
#[derive(Clone, Copy)]
struct Entry {
    code: u32,
    place: u32,
    localisation: u8,
}

impl Entry {
    fn of(record: &Record) -> Entry {
        Entry { code: record.code as u32, place: record.at as u32, localisation: (record.reference & LOCALISATION_BITS) as u8 }
    }

    #[inline]
    fn read(entry: &[u8], kind: BlockKind) -> Entry {
        let place = match kind {
            BlockKind::Old => u32::from_le_bytes([entry[PLACE], entry[PLACE + 1], entry[PLACE + 2], 0]),
            BlockKind::New => u32_at(entry, PLACE),
        };
        Entry { code: u32_at(entry, CODE), place, localisation: entry[kind.localisation()] }
    }

    /// Of a place an old entry keeps three bytes: sheets had no more than
    /// 16,777,216 bytes when those were written.
    fn store(&self, entry: &mut [u8], kind: BlockKind) {
        put(entry, CODE, &self.code.to_le_bytes());
        put(entry, PLACE, &self.place.to_le_bytes()[..kind.localisation() - PLACE]);
        entry[kind.localisation()] = self.localisation;
    }

    /// Its three numbers, where the index is read.
    fn numbers(self) -> [u64; 3] {
        [self.code.into(), self.place.into(), self.localisation.into()]
    }

    /// The three numbers of a hit, for the record with this number.
    fn pick(self, record: usize) -> [u64; 3] {
        [record as u64, self.place.into(), self.localisation.into()]
    }
}

/// The index of a sheet read at a setting, for an output with room for so many
/// bytes. "Refusals: the sheet's own; [..] then 15."
pub fn index_build(sheet: &[u8], year: u32, room: usize) -> Result<Vec<u8>, Refusal> {
    index_build_of_kind(BlockKind::New, sheet, year, room)
}

/// The same in blocks of this kind. "New ones are always written in the new
/// kind": old blocks are built for tests alone, which need files as they were
/// before. Of a place past three bytes an old block keeps only the low three.
pub fn index_build_of_kind(kind: BlockKind, sheet: &[u8], year: u32, room: usize) -> Result<Vec<u8>, Refusal> {
    let entries = of_sheet(sheet, year)?;
    let blocks = entries.chunks(kind.full());
    require(BLOCK * blocks.len() <= room, Refusal::ROOM, 0)?;
    Ok(blocks.enumerate().flat_map(|(number, entries)| block_of(kind, number, entries)).collect())
}

/// Checks an index, and tells what it has.
pub fn index_check(index: &[u8]) -> Result<Index, Refusal> {
    let entries = of_index(index)?.len() as u64;
    Ok(Index { entries, blocks: (index.len() / BLOCK) as u64 })
}

/// The entries of an index in their order, three numbers each: class code,
/// place, localisation. For an output with room for so many numbers.
pub fn index_read(index: &[u8], room: usize) -> Result<Vec<u64>, Refusal> {
    let numbers = of_index(index)?.into_iter().flat_map(Entry::numbers);
    within(numbers.collect(), room)
}

/// The records that have this class code by an index, three numbers each:
/// number, place, localisation. For an output with room for so many numbers.
pub fn index_select(index: &[u8], code: u32, room: usize) -> Result<Vec<u64>, Refusal> {
    within(picks(&of_index(index)?, code), room)
}

/// The same from reading the whole sheet at a setting.
pub fn select(sheet: &[u8], year: u32, code: u32, room: usize) -> Result<Vec<u64>, Refusal> {
    within(picks(&of_sheet(sheet, year)?, code), room)
}

/// ROOM, after every other refusal.
fn within(numbers: Vec<u64>, room: usize) -> Result<Vec<u64>, Refusal> {
    require(numbers.len() <= room, Refusal::ROOM, 0)?;
    Ok(numbers)
}

/// The hits among the entries of all records.
fn picks(entries: &[Entry], code: u32) -> Vec<u64> {
    let hits = entries.iter().enumerate().filter(|(_, entry)| entry.code == code);
    hits.flat_map(|(record, entry)| entry.pick(record)).collect()
}

/// "Entries follow record order": what there is to say of each record of a
/// sheet, after the sheet's own refusals.
fn of_sheet(sheet: &[u8], year: u32) -> Result<Vec<Entry>, Refusal> {
    let mut entries = Entries(Vec::new());
    read_sheet(sheet, year, &mut entries)?;
    Ok(entries.0)
}

/// Keeps the entry of each record that is read.
struct Entries(Vec<Entry>);

impl Listener for Entries {
    fn record(&mut self, _number: u64, record: &Record) {
        self.0.push(Entry::of(record));
    }
}

/// The entries of an index, or "18 BAD BLOCK with the block's place, [..]
/// blocks in order". A file of neither kind is refused at its first block.
fn of_index(index: &[u8]) -> Result<Vec<Entry>, Refusal> {
    let kind = BlockKind::of_file(index);
    let mut entries = Vec::new();
    for (number, block) in index.chunks(BLOCK).enumerate() {
        let place = number * BLOCK;
        let is_last = index.len() - place <= BLOCK;
        let of_block = kind.and_then(|kind| of_block(kind, block, number, is_last));
        entries.extend(of_block.ok_or(Refusal::new(Refusal::BAD_BLOCK, place as u64))?);
    }
    Ok(entries)
}

/// The entries of a block in a file of this kind; none "for a wrong length,
/// number, count, filling or sum" (request 3), "also for mixed kinds" (request
/// 7). What an entry holds is not judged.
fn of_block(kind: BlockKind, block: &[u8], number: usize, is_last: bool) -> Option<impl Iterator<Item = Entry> + '_> {
    let block: &[u8; BLOCK] = block.try_into().ok()?;
    let number_is_right = usize::from(u16_at(block, NUMBER)) == number;
    let count = usize::from(u16_at(block, COUNT));
    // "blocks are full except the last", and an empty last block is none: "an
    // empty sheet has no blocks".
    let count_is_right = if is_last { (1..=kind.full()).contains(&count) } else { count == kind.full() };
    let kind_is_right = block[ENDING..SUM] == kind.ending();
    if !number_is_right || !count_is_right || !kind_is_right || u16_at(block, SUM) != sum(block) {
        return None;
    }
    // "unused entries are zero".
    let (entries, filling) = block[ENTRIES..ENDING].split_at(kind.entry() * count);
    let is_filled = filling.iter().all(|&byte| byte == 0);
    is_filled.then(|| entries.chunks_exact(kind.entry()).map(move |entry| Entry::read(entry, kind)))
}

/// A block with these entries, at most as many as it holds. The index of a
/// sheet within the limit has fewer blocks than two bytes count.
fn block_of(kind: BlockKind, number: usize, entries: &[Entry]) -> [u8; BLOCK] {
    let mut block = [0; BLOCK];
    put(&mut block, NUMBER, &low_bytes::<2>(number as u64));
    put(&mut block, COUNT, &low_bytes::<2>(entries.len() as u64));
    for (bytes, entry) in block[ENTRIES..ENDING].chunks_exact_mut(kind.entry()).zip(entries) {
        entry.store(bytes, kind);
    }
    put(&mut block, ENDING, &kind.ending());
    let sum = sum(&block);
    put(&mut block, SUM, &sum.to_le_bytes());
    block
}

/// "the sum of the first 510 bytes modulo 65536".
fn sum(block: &[u8; BLOCK]) -> u16 {
    block[..SUM].iter().fold(0, |sum: u16, &byte| sum.wrapping_add(byte.into()))
}
