//! Records of many points, parts, items or bytes.

use crate::heads::head;
use crate::judge::{Care, Judge};
use crate::numbers::Numbers;
use crate::phases::{damaged_sheet, damaged_table, not_before};
use crate::places::{places, Bounds};
use crate::sheets::{edited, put_sum_right, Made};
use crate::tables;
use second::Table;
use sxf_sys::fields::header;
use sxf_sys::reference::{ELEMENT_SIZE, FLOATING, SEMANTICS, TEXT_IN_METRIC, THREE_DIMENSIONS};
use sxf_sys::{row, years, MARK};

/// The points of a short shore, as document 02's lake has it.
pub const SHORE: u64 = 10;

/// The points of islands, about the most that two bytes count. The first needs
/// no mark, and is as likely as the two that do; the last is that lake's.
const ISLANDS: [u64; 4] = [65_535, 65_535, 65_536, 70_000];

/// Makes a sheet with something large between two small records, and reads,
/// writes or damages it, or turns the mark of what is large.
pub fn run(judge: &mut Judge, numbers: &mut Numbers) {
    let year = not_before(numbers, years::TYPE_128);
    let mut table = Table::default();
    tables::record(&mut table, numbers, 0, 0, &[1]);
    let which = numbers.below(12);
    judge.note(format!("large record {which} for {year}"));
    large(&mut table, numbers, year, which);
    tables::record(&mut table, numbers, SEMANTICS, 0, &[1]);
    tables::item(&mut table, numbers, year);
    let head = head(numbers, year);
    let made = edited(numbers, year, head, table);
    let year = not_before(numbers, year);
    match numbers.below(5) {
        0 => judge.reads(&made.sheet, &[(year, Care::Whole), (1999, Care::Check)], numbers),
        1 => judge.writes(&made.head, &made.table, &[year, 1999], numbers),
        2 => damaged_sheet(judge, &made, numbers),
        3 => damaged_table(judge, year, made.head, made.table, numbers),
        _ => mark_turned(judge, year, made, numbers),
    }
}

/// The mark of the second record turned, in the table and in the sheet. A count
/// that needs it is then without, and a word that is another number becomes the
/// first count.
fn mark_turned(judge: &mut Judge, year: u32, made: Made, numbers: &mut Numbers) {
    judge.note("mark turned".into());
    let Made { head, mut table, mut sheet, .. } = made;
    let Bounds { at, points, .. } = places(&table).records[1];
    let second_row = row::row_size(1, 0);
    let mark = &mut table.numbers[second_row + row::MARK];
    *mark ^= 1;
    let points = if *mark == 1 { MARK as u16 } else { points as u16 };
    sheet[header::POINTS.at(at).range()].copy_from_slice(&points.to_le_bytes());
    put_sum_right(&mut sheet);
    judge.reads(&sheet, &[(year, Care::Once), (1999, Care::Check)], numbers);
    judge.writes(&head, &table, &[year, 1999], numbers);
}

/// Adds a record of many points, of many parts, with a long value or with many
/// items, or many records.
fn large(table: &mut Table, numbers: &mut Numbers, year: u32, which: u64) {
    match which {
        0..=6 => about_the_mark(table, numbers, year),
        7 | 8 => {
            // As many parts as there can be, or one fewer, without points.
            let parts = 65536 - usize::from(numbers.chance(1, 8));
            let reference = tables::reference(numbers, year, false) & !TEXT_IN_METRIC;
            tables::record(table, numbers, reference, 0, &vec![0; parts]);
        }
        9 => {
            tables::record(table, numbers, SEMANTICS, 9, &[2]);
            let value = 2 * numbers.between(1, 100_000);
            tables::item_of(table, numbers, 128, 255, value);
        }
        10 => {
            tables::record(table, numbers, SEMANTICS, 9, &[2]);
            for _ in 0..numbers.between(1000, 3000) {
                tables::item(table, numbers, year);
            }
        }
        _ => {
            // Up to some hundred thousand bytes, so that records lie far apart.
            let most = numbers.pick(&[1, 1, 60]);
            for _ in 0..numbers.between(1000, 3000) {
                let points = numbers.below(most);
                tables::record(table, numbers, 0, 9, &[points]);
            }
        }
    }
}

/// A record about the mark: a short shore with an island and parts of few
/// points, or a first part of about as many points as need the mark and parts of
/// few or of about as many as two bytes count. It has the mark where a count
/// needs it, and now and then where none does.
fn about_the_mark(table: &mut Table, numbers: &mut Numbers, year: u32) {
    let (mut points, later): (Vec<u64>, &[u64]) = if numbers.chance(4, 7) {
        (vec![SHORE, numbers.pick(&ISLANDS)], &[0, 1])
    } else {
        (vec![numbers.pick(&[65534, 65535, 65536, 70_000])], &[0, 1, 65535, 65536 + 3])
    };
    for _ in 0..numbers.below(3) {
        points.push(numbers.pick(later));
    }
    let mut reference = tables::reference(numbers, year, false);
    if numbers.chance(3, 4) {
        // Short elements in two dimensions, which take the least time.
        reference &= !(ELEMENT_SIZE | THREE_DIMENSIONS | FLOATING);
    }
    if numbers.chance(1, 3) {
        tables::marked_record(table, numbers, reference, &points);
    } else {
        let word = numbers.pick(&[5, points[0]]);
        tables::record(table, numbers, reference, word, &points);
    }
}
