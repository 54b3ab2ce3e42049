//! Code indexes worked out by hand: that of sheet P in new blocks and in old
//! ones, and blocks of both kinds in one file.

use super::{sheet_e, sheet_p};
use crate::archive;
use crate::judge::Judge;
use crate::numbers::Numbers;
use sxf_sys::index::BLOCK_SIZE;
use sxf_sys::refusals::{BAD_BLOCK, ROOM};

/// How many there are.
pub const CASES: u64 = 4;

/// Runs one of them.
pub fn run(judge: &mut Judge, case: u64) {
    match case {
        0 => of_p(judge),
        1 => counts(judge),
        2 => mixed(judge),
        _ => endings(judge),
    }
    judge.accepted = true;
}

/// A block of these first bytes, of which all others are zero but for the first
/// of the two before the sum, and the sum, which is below 256.
fn block(start: &[u8], ending: u8, sum: u8) -> [u8; BLOCK_SIZE] {
    let mut block = [0; BLOCK_SIZE];
    block[..start.len()].copy_from_slice(start);
    block[508] = ending;
    block[510] = sum;
    block
}

const NONE: archive::Written = archive::Written { number: 0, place: 0, year: 0, length: 0 };

fn length(length: u64) -> archive::Written {
    archive::Written { length, ..NONE }
}

fn refused(number: u64, place: u64) -> archive::Written {
    archive::Written { number, place, ..NONE }
}

/// What is stated of an index: how many entries and blocks it has, or the place
/// of its first bad block.
type Stated = Result<(u64, u64), u64>;

/// The archive says so of an index, whatever is asked of it.
fn says(judge: &mut Judge, name: &str, index: &[u8], stated: Stated) {
    let none = archive::Index::default();
    let due = match stated {
        Ok((entries, blocks)) => archive::Index { entries, blocks, ..none },
        Err(place) => archive::Index { number: BAD_BLOCK, place, ..none },
    };
    judge.same(|| format!("{name}, checked"), archive::index_check(index), due);
    if let Err(place) = stated {
        judge.same(|| format!("{name}, read"), archive::index_read(index, &mut []), refused(BAD_BLOCK, place));
        judge.same(|| format!("{name}, selected"), archive::index_select(index, 0, &mut []), refused(BAD_BLOCK, place));
    }
    judge.index(index, &[0], &mut Numbers::of_case(0, 0, 0));
}

/// The index of sheet P, whose record has code 0, place 452, which is 0x1C4, and
/// localisation 2. The sum is 1 + 196 + 1 + 2, and 1 more in a new block. It is
/// built in a new block, and read in either.
fn of_p(judge: &mut Judge) {
    let new = block(&[0, 0, 1, 0, 0, 0, 0, 0, 0xC4, 1, 0, 0, 2], 1, 201);
    let old = block(&[0, 0, 1, 0, 0, 0, 0, 0, 0xC4, 1, 0, 2], 0, 200);
    let (sheet, mut numbers) = (sheet_p(), Numbers::of_case(0, 0, 0));

    let mut built = [9; BLOCK_SIZE];
    let answer = archive::index_build(&sheet, 1999, &mut built);
    judge.same(|| "P's index".into(), (answer, built), (length(512), new));
    judge.same(|| "P's index without room".into(), archive::index_build(&sheet, 1999, &mut [9; 511]), refused(ROOM, 0));
    judge.same(|| "P without room".into(), archive::select(&sheet, 1999, 0, &mut [9; 2]), refused(ROOM, 0));
    judge.indexed(&sheet, 1999, &[0, 1], &mut numbers);
    for (kind, block) in [("new", new), ("old", old)] {
        says(judge, &format!("P's {kind} index"), &block, Ok((1, 1)));
        let mut entries = [9; 4];
        let answer = archive::index_read(&block, &mut entries);
        judge.same(|| format!("P's {kind} index, read"), (answer, entries), (length(3), [0, 452, 2, 9]));
        for (code, due) in [(0, (length(3), [0, 452, 2, 9])), (1, (NONE, [9; 4]))] {
            let (mut by_index, mut from_sheet) = ([9; 4], [9; 4]);
            let answer = archive::index_select(&block, code, &mut by_index);
            judge.same(|| format!("code {code} by P's {kind} index"), (answer, by_index), due);
            let answer = archive::select(&sheet, 1999, code, &mut from_sheet);
            judge.same(|| format!("code {code} of P"), (answer, from_sheet), due);
        }
        // A second block of wrong number, and a piece: the first is then not full.
        let twice = [block, block].concat();
        says(judge, &format!("P's {kind} index twice"), &twice, Err(0));
        says(judge, &format!("a piece after P's {kind} index"), &twice[..513], Err(0));
        says(judge, &format!("a piece of P's {kind} index"), &block[..511], Err(0));
    }
    // An empty sheet has no blocks.
    judge.same(|| "E's index".into(), archive::index_build(&sheet_e(), 1999, &mut []), NONE);
    says(judge, "E's index", &[], Ok((0, 0)));
}

/// Blocks of zero entries: an old one holds 63, a new one 56.
fn counts(judge: &mut Judge) {
    for (count, old, new) in [
        (0, Err(0), Err(0)),
        (1, Ok((1, 1)), Ok((1, 1))),
        (55, Ok((55, 1)), Ok((55, 1))),
        (56, Ok((56, 1)), Ok((56, 1))),
        (57, Ok((57, 1)), Err(0)),
        (63, Ok((63, 1)), Err(0)),
        (64, Err(0), Err(0)),
    ] {
        says(judge, &format!("{count} entries in an old block"), &block(&[0, 0, count], 0, count), old);
        says(judge, &format!("{count} entries in a new block"), &block(&[0, 0, count], 1, count + 1), new);
    }
}

/// Full blocks of zero entries, and after them one of one entry, each of either
/// kind: "a file holds one kind only" (document 02, request 7).
fn mixed(judge: &mut Judge) {
    let old = |number, count| block(&[number, 0, count], 0, number + count);
    let new = |number, count| block(&[number, 0, count], 1, number + count + 1);
    for (name, blocks, stated) in [
        ("old blocks", vec![old(0, 63), old(1, 63), old(2, 1)], Ok((127, 3))),
        ("new blocks", vec![new(0, 56), new(1, 56), new(2, 1)], Ok((113, 3))),
        ("old after new", vec![new(0, 56), new(1, 56), old(2, 1)], Err(1024)),
        ("new after old", vec![old(0, 63), old(1, 63), new(2, 1)], Err(1024)),
        ("old between new", vec![new(0, 56), old(1, 63), new(2, 1)], Err(512)),
        ("new between old", vec![old(0, 63), new(1, 56), old(2, 1)], Err(512)),
        ("old between new, of as many entries", vec![new(0, 56), old(1, 56), new(2, 1)], Err(512)),
        ("new between old, of as many entries", vec![old(0, 63), new(1, 63), old(2, 1)], Err(512)),
        ("old before new", vec![old(0, 63), new(1, 56), new(2, 1)], Err(512)),
        ("new before old", vec![new(0, 56), old(1, 63), old(2, 1)], Err(512)),
        // The first block is not full in its own kind.
        ("old before new, of as many entries", vec![old(0, 56), new(1, 56), new(2, 1)], Err(0)),
        ("new before old, of as many entries", vec![new(0, 63), old(1, 63), old(2, 1)], Err(0)),
    ] {
        says(judge, name, &blocks.concat(), stated);
    }
}

/// Two bytes before the sum that are neither 0 and 0 nor 1 and 0, in a block
/// alone and after a full one of either kind.
fn endings(judge: &mut Judge) {
    for [first, second] in [[0, 1], [1, 1], [2, 0], [3, 0], [0, 2], [128, 0], [0, 128], [100, 100]] {
        let with_ending = |number: u8| {
            let mut block = block(&[number, 0, 1], first, number + 1 + first + second);
            block[509] = second;
            block
        };
        let name = |what: &str| format!("{what} that ends with {first} and {second}");
        says(judge, &name("a block"), &with_ending(0), Err(0));
        let after_old = [block(&[0, 0, 63], 0, 63), with_ending(1)].concat();
        says(judge, &name("a block after an old one"), &after_old, Err(512));
        let after_new = [block(&[0, 0, 56], 1, 57), with_ending(1)].concat();
        says(judge, &name("a block after a new one"), &after_new, Err(512));
    }
}
