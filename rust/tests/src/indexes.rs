//! Code indexes of sheets, and indexes of entries that may be any, in old blocks
//! and in new ones.

use crate::blocks::{
    block_count, block_of, block_range, entries, full, index_of, number_at, other, put, put_sum_right, sum_before, used, Entry,
    CODE, COUNT, ENDING, ENTRIES, KINDS, NUMBER, OLD_FULL, SUM,
};
use crate::heads::{head, NO_SETTINGS, SETTINGS};
use crate::index_damage::{damage, wrong_numbers, wrong_sums, COUNTS, ENDINGS};
use crate::judge::Judge;
use crate::numbers::Numbers;
use crate::phases::not_before;
use crate::places::places;
use crate::sheet_damage;
use crate::sheets::{self, edited, setting, Made};
use crate::tables::{rows, table, Sizes};
use second::BlockKind;
use sxf_sys::fields::{header, passport};
use sxf_sys::index::{BLOCK_FULL, BLOCK_SIZE};
use sxf_sys::row;

/// How many records sheets have: about as many as fill no block, one or two, in
/// either kind.
#[rustfmt::skip]
const SIZES: [usize; 12] = [
    0, 1, BLOCK_FULL - 1, BLOCK_FULL, BLOCK_FULL + 1, OLD_FULL - 1, OLD_FULL, OLD_FULL + 1,
    2 * BLOCK_FULL, 2 * BLOCK_FULL + 1, 2 * OLD_FULL, 2 * OLD_FULL + 1,
];

/// How many cases there are for each of these sizes and each setting.
pub const EACH_SIZE: u64 = (SIZES.len() * SETTINGS.len()) as u64;

/// The most blocks of the indexes that are gone through byte by byte.
const BLOCKS: u64 = 3;

/// How many cases there are for each kind, each count of the last block, and
/// each number of blocks.
pub const EACH_BLOCK: u64 = BLOCKS * (OLD_FULL + BLOCK_FULL) as u64;

/// Two or more codes to choose from. They are likely to be taken for one another:
/// the first and the last that there are, and some that differ in one byte or in
/// the order of their bytes.
pub fn codes(numbers: &mut Numbers) -> Vec<u32> {
    let own = numbers.any() as u32;
    let byte = 8 * numbers.below(4) as u32;
    let mut codes = vec![0, u32::MAX, own, own ^ 1 << byte, own ^ 0x80 << byte, own.swap_bytes(), own.wrapping_add(1)];
    let (first, kept) = (numbers.index(codes.len()), numbers.between(2, codes.len() as u64));
    codes.rotate_left(first);
    codes.truncate(kept as usize);
    codes
}

/// A sheet of so many records, of differing lengths, whose codes are these; but
/// the last of them no record has, and of three or more the one before it has
/// one record.
pub fn sheet_of(numbers: &mut Numbers, year: u32, records: usize, codes: &[u32]) -> Made {
    let head = head(numbers, year);
    let mut table = table(numbers, year, Sizes { records: records as u64, parts: 2, points: 3, items: 2 });
    let had = &codes[..codes.len() - 1];
    let (once, often) = (had[had.len() - 1], &had[..(had.len() - 1).max(1)]);
    let indices: Vec<usize> = rows(&table).map(|row| row.index).collect();
    for &index in &indices {
        table.numbers[index + row::CODE] = u64::from(numbers.pick(often));
    }
    if !indices.is_empty() {
        table.numbers[numbers.pick(&indices) + row::CODE] = u64::from(once);
    }
    edited(numbers, year, head, table)
}

/// A sheet of each size for each setting: its index at all settings, and at
/// years that are none; and of the sheet with a fault, which comes before any
/// lack of room.
pub fn size(judge: &mut Judge, case: u64, numbers: &mut Numbers) {
    let (size, year) = (SIZES[case as usize % SIZES.len()], SETTINGS[case as usize / SIZES.len()]);
    let codes = codes(numbers);
    let made = sheet_of(numbers, year, size, &codes);
    judge.note(format!("a sheet of {size} records for {year}"));
    for asked in SETTINGS.into_iter().chain(NO_SETTINGS) {
        let built = judge.indexed(&made.sheet, asked, &codes, numbers);
        judge.accepted |= built;
    }
    for (what, sheet) in with_faults(&made) {
        let before = judge.disagreements.len();
        judge.indexed(&sheet, year, &codes, numbers);
        judge.context(before, || what.into());
    }
}

/// The sheet with a fault in its head, in its last record or after it.
fn with_faults(made: &Made) -> Vec<(&'static str, Vec<u8>)> {
    let with = |alter: &dyn Fn(&mut Vec<u8>)| {
        let mut sheet = made.sheet.clone();
        alter(&mut sheet);
        sheets::put_sum_right(&mut sheet);
        sheet
    };
    let mut sum_wrong = made.sheet.clone();
    sum_wrong[passport::SUM.place] ^= 1;
    let mut faulty = vec![
        ("the sum is wrong", sum_wrong),
        ("a byte less", with(&|sheet| sheet.truncate(sheet.len() - 1))),
        ("a byte more", with(&|sheet| sheet.push(0))),
        ("a reserved flag", with(&|sheet| sheet[passport::FLAGS.place] |= 4)),
    ];
    if let Some(last) = places(&made.table).records.last() {
        let byte20 = header::BYTE20.at(last.at).place;
        faulty.push(("no such localisation in the last record", with(&|sheet| sheet[byte20] |= 0x0F)));
        faulty.push(("another identifier of the last record", with(&|sheet| sheet[last.at] ^= 1)));
    }
    faulty
}

/// A sheet, right or damaged, of some records, often about a whole number of
/// blocks.
pub fn drawn(judge: &mut Judge, numbers: &mut Numbers) {
    let year = setting(numbers);
    let (codes, records) = (codes(numbers), any_count(numbers));
    let made = sheet_of(numbers, year, records, &codes);
    judge.note(format!("a sheet of {records} records for {year}"));
    let mut asked = vec![numbers.pick(&codes), numbers.pick(&codes), numbers.of_bits(32) as u32];
    asked.dedup();
    let year = not_before(numbers, year);
    judge.accepted = judge.indexed(&made.sheet, year, &asked, numbers);
    let other = numbers.pick(&SETTINGS);
    let other = numbers.pick(&[other, SETTINGS[0], NO_SETTINGS[0]]);
    judge.indexed(&made.sheet, other, &asked[..1], numbers);
    if records > 0 && numbers.chance(1, 4) {
        let (sheet, notes) = sheet_damage::damage(numbers, &made, &places(&made.table));
        judge.notes.extend(notes);
        judge.indexed(&sheet, year, &asked[..1], numbers);
    }
}

/// How many records or entries: mostly about a whole number of blocks or within
/// the first two, now and then some hundred.
fn any_count(numbers: &mut Numbers) -> usize {
    match numbers.below(16) {
        0..=5 => numbers.pick(&SIZES),
        6 | 7 => numbers.index(10 * OLD_FULL),
        _ => numbers.index(2 * OLD_FULL + 2),
    }
}

/// An index of entries that may be any, right or damaged.
pub fn damaged(judge: &mut Judge, numbers: &mut Numbers) {
    let (kind, codes, count) = (numbers.pick(&KINDS), codes(numbers), any_count(numbers));
    let entries = entries(numbers, &codes, count);
    let mut index = index_of(kind, &entries);
    judge.note(format!("an index of {count} entries, {kind:?}"));
    if numbers.chance(3, 4) {
        let notes = damage(numbers, kind, &mut index);
        judge.notes.extend(notes);
    }
    let asked = [numbers.pick(&codes), numbers.of_bits(32) as u32];
    judge.accepted = judge.index(&index, &asked, numbers);
}

/// An index of one kind whose last block has one of all counts: each byte of it
/// altered, with the sum put right and without; each field of each block set to
/// what it is likely to be taken for; each block of the other kind; and each
/// length.
pub fn block(judge: &mut Judge, case: u64, numbers: &mut Numbers) {
    let (kind, case) = match (case as usize).checked_sub(BLOCKS as usize * OLD_FULL) {
        None => (BlockKind::Old, case as usize),
        Some(case) => (BlockKind::New, case),
    };
    let (blocks, last) = (case / full(kind), 1 + case % full(kind));
    let codes = codes(numbers);
    let entries = entries(numbers, &codes, blocks * full(kind) + last);
    let index = index_of(kind, &entries);
    judge.note(format!("{} blocks, {kind:?}, the last of {last} entries", blocks + 1));
    judge.accepted = judge.index(&index, &codes, numbers);
    let code = numbers.pick(&codes);
    let mut each = Each { judge, numbers, kind, code };
    each.byte(&index);
    for number in 0..=blocks {
        each.fields(&index, number);
        each.kind(&index, number);
    }
    each.length(&index);
}

/// What is altered in an index, one after another.
struct Each<'a> {
    judge: &'a mut Judge,
    numbers: &'a mut Numbers,
    kind: BlockKind,
    code: u32,
}

impl Each<'_> {
    fn ask(&mut self, index: &[u8], altered: impl FnOnce() -> String) {
        let before = self.judge.disagreements.len();
        self.judge.index_once(index, self.code, self.numbers);
        self.judge.context(before, altered);
    }

    fn byte(&mut self, index: &[u8]) {
        let mut altered = index.to_vec();
        for at in 0..index.len() {
            let range = block_range(index, at / BLOCK_SIZE);
            altered[at] ^= 1 << self.numbers.below(8);
            self.ask(&altered, || format!("byte {at} altered"));
            put_sum_right(&mut altered[range.clone()]);
            self.ask(&altered, || format!("byte {at} altered, and the sum put right"));
            altered[range.clone()].copy_from_slice(&index[range]);
        }
    }

    fn fields(&mut self, index: &[u8], number: usize) {
        let range = block_range(index, number);
        let own = &index[range.clone()];
        let mut altered = index.to_vec();
        for other in wrong_numbers(number) {
            let block = &mut altered[range.clone()];
            put(block, NUMBER, other);
            put_sum_right(block);
            self.ask(&altered, || format!("block {number} numbered {other}"));
            altered[range.clone()].copy_from_slice(own);
        }
        let count = number_at(own, COUNT);
        for other in COUNTS.into_iter().chain(wrong_numbers(count)) {
            let block = &mut altered[range.clone()];
            put(block, COUNT, other);
            put_sum_right(block);
            self.ask(&altered, || format!("count {other} in block {number}"));
            let block = &mut altered[range.clone()];
            let used = used(self.kind, block);
            block[used..ENDING.place].fill(0);
            put_sum_right(block);
            self.ask(&altered, || format!("count {other} in block {number}, and unused entries zero"));
            altered[range.clone()].copy_from_slice(own);
        }
        let without_entries = sum_before(own, ENTRIES.place);
        for other in wrong_sums(own).into_iter().chain([without_entries]) {
            put(&mut altered[range.clone()], SUM, other);
            self.ask(&altered, || format!("sum {other} of block {number}"));
        }
    }

    /// Other endings alone; and in place of the block one of the other kind, with
    /// as many entries as make it right there or wrong, or with one of zeros,
    /// which has the same bytes in both kinds.
    fn kind(&mut self, index: &[u8], number: usize) {
        let range = block_range(index, number);
        let mut altered = index.to_vec();
        for other in ENDINGS {
            let block = &mut altered[range.clone()];
            put(block, ENDING, other);
            put_sum_right(block);
            self.ask(&altered, || format!("ending {other:#x} of block {number}"));
            altered[range.clone()].copy_from_slice(&index[range.clone()]);
        }
        let kind = other(self.kind);
        for count in [1, 2, full(self.kind).min(full(kind)), full(kind)] {
            let entries = entries(self.numbers, &[self.code], count);
            altered[range.clone()].copy_from_slice(&block_of(kind, number, &entries));
            self.ask(&altered, || format!("block {number} of the other kind, with {count} entries"));
        }
        let zeros = [Entry::of_all(0)];
        altered[range.clone()].copy_from_slice(&block_of(self.kind, number, &zeros));
        self.ask(&altered, || format!("block {number} with one entry, of zeros"));
        altered[range.clone()].copy_from_slice(&block_of(kind, number, &zeros));
        self.ask(&altered, || format!("block {number} of the other kind, with one entry, of zeros"));
    }

    /// Each length up to the whole, and some pieces after it, of which the last
    /// is a whole block: after a full one, of the right number, it would be
    /// right but for its count.
    fn length(&mut self, index: &[u8]) {
        for length in 0..index.len() {
            self.ask(&index[..length], || format!("cut to {length} bytes"));
        }
        let [own, others] = [self.kind, other(self.kind)].map(|kind| block_of(kind, block_count(index), &[]));
        for length in [1, 2, CODE.after(), BLOCK_SIZE - 1, BLOCK_SIZE] {
            for more in [&own[..], &others, &[0; BLOCK_SIZE], index] {
                let longer = [index, &more[..length]].concat();
                self.ask(&longer, || format!("{length} bytes more"));
            }
        }
        for kind in KINDS {
            let longer = [index, &block_of(kind, block_count(index), &[Entry::of_all(0)])].concat();
            self.ask(&longer, || format!("a block more, {kind:?}"));
        }
    }
}
