//! Damage done to code indexes: mostly one fault in one block, and the sum put
//! right.

use crate::blocks::{
    block_count, block_of, block_range, ending, entries, entry_size, full, number_at, other, put, put_sum_right, sum_before, used,
    Entry, COUNT, ENDING, ENTRIES, KINDS, NUMBER, OLD_FULL, SUM,
};
use crate::numbers::Numbers;
use second::BlockKind;
use sxf_sys::fields::Field;
use sxf_sys::index::{BLOCK_FULL, BLOCK_SIZE};

/// One or two damages, mostly one, of an index that was made of blocks of this
/// kind.
pub fn damage(numbers: &mut Numbers, kind: BlockKind, index: &mut Vec<u8>) -> Vec<String> {
    (0..numbers.pick(&[1, 1, 1, 2])).map(|_| once(numbers, kind, index)).collect()
}

/// Damages an index, and says how.
fn once(numbers: &mut Numbers, kind: BlockKind, index: &mut Vec<u8>) -> String {
    match numbers.below(16) {
        0..=11 if index.len() >= BLOCK_SIZE => in_a_block(numbers, kind, index),
        12 => blocks_moved(numbers, kind, index),
        13 | 14 => end(numbers, kind, index),
        _ => anything(numbers, index),
    }
}

/// Numbers that a field of two bytes is taken wrongly for: beside its own, with
/// its bytes changed over, and the same in one byte.
pub fn wrong_numbers(own: usize) -> [usize; 8] {
    [own + 1, own.wrapping_sub(1), changed_over(own), own | 0x100, own ^ 0x8000, own << 8, 0xFFFF, 0]
}

/// A number whose low two bytes are this one's, changed over.
fn changed_over(number: usize) -> usize {
    number << 8 | number >> 8 & 0xFF
}

/// Counts that are too few, too many or neither, in one kind or the other.
#[rustfmt::skip]
pub const COUNTS: [usize; 19] = [
    0, 1, 2, BLOCK_FULL - 1, BLOCK_FULL, BLOCK_FULL + 1, OLD_FULL - 1, OLD_FULL, OLD_FULL + 1, 127, 191, 255, 256, 257,
    256 + BLOCK_FULL, 256 + OLD_FULL, BLOCK_FULL << 8, OLD_FULL << 8, 0xFFFF,
];

/// Endings of one kind, of the other, and of neither: their bytes changed over,
/// both 1, and such as have a bit in common with one or none.
pub const ENDINGS: [usize; 12] = [0, 1, 0x100, 0x101, 2, 3, 0x80, 0x8000, 0x8001, 0xFF, 0xFF00, 0xFFFF];

/// Sums that a block may be thought to have: beside its own, with its bytes
/// changed over, of all bytes, without the number or the count.
pub fn wrong_sums(block: &[u8]) -> [usize; 10] {
    let sum = sum_before(block, SUM.place);
    let without = |field: Field| sum - block[field.range()].iter().map(|&byte| usize::from(byte)).sum::<usize>();
    let of_all = sum_before(block, BLOCK_SIZE);
    [sum + 1, sum.wrapping_sub(1), sum ^ 0x100, sum ^ 0x8000, changed_over(sum), of_all, !sum, 0, without(NUMBER), without(COUNT)]
}

/// One field of a block altered, and the sum put right; or all of a block of the
/// other kind.
fn in_a_block(numbers: &mut Numbers, kind: BlockKind, index: &mut [u8]) -> String {
    let whole = index.len() / BLOCK_SIZE;
    let (inner, any) = (whole / 2, numbers.index(whole));
    let number = numbers.pick(&[0, whole - 1, inner, inner, any, any]);
    let range = block_range(index, number);
    let block = &mut index[range];
    let what = match numbers.below(13) {
        0 | 1 => {
            put(block, NUMBER, wrong(numbers, wrong_numbers(number)));
            "number"
        }
        2 => {
            put(block, COUNT, numbers.pick(&COUNTS));
            "count"
        }
        3 | 4 => recounted(numbers, kind, block),
        5 => {
            let at = ENTRIES.place + numbers.index(used(kind, block).max(ENTRIES.place + 1) - ENTRIES.place);
            block[at] = numbers.byte();
            "an entry"
        }
        6 | 7 => unused(numbers, kind, block),
        8 | 9 => {
            let any = numbers.index(1 << 16);
            let neither = numbers.pick(&ENDINGS);
            put(block, ENDING, numbers.pick(&[ending(other(kind)), ending(other(kind)), neither, any]));
            "ending"
        }
        10 => {
            block.copy_from_slice(&block_of_other_kind(numbers, kind, number));
            "kind"
        }
        _ => {
            let sums = wrong_sums(block);
            put(block, SUM, wrong(numbers, sums));
            return format!("sum of block {number} altered");
        }
    };
    if numbers.chance(15, 16) {
        put_sum_right(block);
    }
    format!("{what} of block {number} altered")
}

/// One of a list, or any that two bytes hold.
fn wrong<const N: usize>(numbers: &mut Numbers, list: [usize; N]) -> usize {
    let any = numbers.index(1 << 16);
    if numbers.chance(1, 8) {
        any
    } else {
        numbers.pick(&list)
    }
}

/// A block of the other kind that is right where it stands, but for its kind:
/// full, or with fewer entries.
fn block_of_other_kind(numbers: &mut Numbers, kind: BlockKind, number: usize) -> [u8; BLOCK_SIZE] {
    let kind = other(kind);
    let fewer = 1 + numbers.index(full(kind));
    let count = numbers.pick(&[full(kind), fewer]);
    let entries = entries(numbers, &[0, 7, u32::MAX], count);
    block_of(kind, number, &entries)
}

/// Another count, and zeros in the entries that are then unused.
fn recounted(numbers: &mut Numbers, kind: BlockKind, block: &mut [u8]) -> &'static str {
    let any = numbers.pick(&COUNTS);
    put(block, COUNT, numbers.pick(&[0, full(kind) - 1, any]));
    let used = used(kind, block);
    block[used..ENDING.place].fill(0);
    "count and unused entries"
}

/// A byte of an unused entry, often the first or the last. A full block has
/// none: there its last entry is left out first.
fn unused(numbers: &mut Numbers, kind: BlockKind, block: &mut [u8]) -> &'static str {
    if number_at(block, COUNT) >= full(kind) {
        put(block, COUNT, full(kind) - 1);
        let used = used(kind, block);
        block[used..ENDING.place].fill(0);
    }
    let (first, after) = (used(kind, block), ENDING.place);
    let any = first + numbers.index(after - first);
    let at = numbers.pick(&[first, after - 1, any]);
    block[at] = 1 << numbers.below(8);
    "an unused entry"
}

/// Blocks changed over, left out, doubled or put elsewhere, their numbers as
/// they were or made to follow one another again.
fn blocks_moved(numbers: &mut Numbers, kind: BlockKind, index: &mut Vec<u8>) -> String {
    let mut blocks: Vec<Vec<u8>> = index.chunks(BLOCK_SIZE).map(<[u8]>::to_vec).collect();
    if blocks.is_empty() {
        blocks.push(block_of(kind, 0, &[]).to_vec());
    }
    let (from, to) = (numbers.index(blocks.len()), numbers.index(blocks.len()));
    let what = match numbers.below(4) {
        0 => {
            blocks.swap(from, to);
            "changed over"
        }
        1 => {
            blocks.remove(from);
            "left out"
        }
        2 => {
            blocks.insert(to, blocks[from].clone());
            "doubled"
        }
        _ => {
            let block = blocks.remove(from);
            blocks.insert(to, block);
            "put elsewhere"
        }
    };
    let renumbered = numbers.chance(1, 3);
    if renumbered {
        for (number, block) in blocks.iter_mut().enumerate().filter(|(_, block)| block.len() == BLOCK_SIZE) {
            put(block, NUMBER, number);
            put_sum_right(block);
        }
    }
    *index = blocks.concat();
    format!("block {from} {what} ({to}), numbered again: {renumbered}")
}

/// The end cut, or something after it: a piece of a block, a block without
/// entries, or one that would follow, of this kind or of the other.
fn end(numbers: &mut Numbers, kind: BlockKind, index: &mut Vec<u8>) -> String {
    let any = 1 + numbers.index(2 * BLOCK_SIZE);
    let length = numbers.pick(&[1, entry_size(kind), BLOCK_SIZE - 1, any]);
    let follows = block_of(numbers.pick(&KINDS), block_count(index), &[Entry::of_all(7)]);
    match numbers.below(4) {
        0 => {
            index.truncate(index.len().saturating_sub(length));
            format!("cut by {length} bytes")
        }
        1 => {
            index.resize(index.len() + length, numbers.pick(&[0, 0, 0xFF]));
            format!("{length} bytes after the end")
        }
        2 => {
            index.extend_from_slice(&block_of(kind, block_count(index), &[]));
            "a block without entries after the end".into()
        }
        _ => {
            index.extend_from_slice(&follows[..length.min(BLOCK_SIZE)]);
            format!("{length} bytes of a block that would follow")
        }
    }
}

/// Random bytes in place of the index, or bits of it turned.
fn anything(numbers: &mut Numbers, index: &mut Vec<u8>) -> String {
    if index.is_empty() || numbers.chance(1, 4) {
        let any = 1 + numbers.index(3 * BLOCK_SIZE);
        let length = numbers.pick(&[1, BLOCK_SIZE, 2 * BLOCK_SIZE, any]);
        *index = numbers.bytes(length);
        return format!("{length} bytes, which may be any");
    }
    let at = numbers.index(index.len());
    index[at] ^= 1 << numbers.below(8);
    format!("a bit of {at} turned")
}
