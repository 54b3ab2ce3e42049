//! Damage done to heads and tables that were right.

use crate::heads::most;
use crate::numbers::Numbers;
use crate::tables::rows;
use second::{Head, Table};
use sxf_sys::fields::passport::{ACCURACY, EAST, EPSG, FLAGS, LABELS, NORTH, REST, SORTING};
use sxf_sys::fields::{descriptor, passport};
use sxf_sys::reference as bits;
use sxf_sys::row::{
    CODE, GENERALISATION, GROUP, IN_GROUP, ITEMS, ITEM_LENGTH, ITEM_SCALE, ITEM_TYPE, ITEM_WIDTH, MARK, PARTS, PART_WIDTH, POINTS,
    REFERENCE, ROW_WIDTH, WORD,
};

/// One to three damages, mostly one. What was done is told.
pub fn damage(numbers: &mut Numbers, head: &mut Head, table: &mut Table) -> Vec<String> {
    let rows: Vec<usize> = rows(table).map(|row| row.index).collect();
    let mut notes = Vec::new();
    for _ in 0..numbers.pick(&[1, 1, 1, 2, 3]) {
        let note = match numbers.below(20) {
            0..=3 => head_damage(numbers, head),
            4 => cut_damage(numbers, table),
            5..=12 if !rows.is_empty() => number_damage(numbers, table, &rows),
            13 if !rows.is_empty() => counts_damage(numbers, table, &rows),
            14 | 15 if !rows.is_empty() => mark_damage(numbers, table, &rows),
            16 | 17 => elements_damage(numbers, table),
            18 => bytes_damage(numbers, table),
            _ => closing_damage(numbers, table, &rows),
        };
        notes.push(note);
    }
    notes
}

fn head_damage(numbers: &mut Numbers, head: &mut Head) -> String {
    let which = numbers.below(8);
    match which {
        0..=3 => {
            let (text, most) = match which {
                0 => (&mut head.date, most(passport::DATE)),
                1 => (&mut head.designation, most(passport::DESIGNATION)),
                2 => (&mut head.title, most(passport::TITLE)),
                _ => (&mut head.designation2, most(descriptor::DESIGNATION)),
            };
            alter_text(numbers, text, most);
            format!("text {which} of {} bytes", text.len())
        }
        4 | 5 => {
            let at = numbers.pick(&CHECKED) - REST.place;
            head.rest[at] = alter_byte(numbers, head.rest[at]);
            format!("rest, byte {at}")
        }
        6 => {
            let at = numbers.index(head.carried.len());
            head.carried[at] = alter_byte(numbers, head.carried[at]);
            format!("carried, byte {at}")
        }
        _ => {
            let at = numbers.index(head.rest.len());
            head.rest[at] = numbers.byte();
            format!("rest, byte {at}")
        }
    }
}

/// Places of the rest that rules look at: of a wider field its ends.
const CHECKED: [usize; 13] = [
    FLAGS.place,
    FLAGS.place,
    LABELS.place,
    ACCURACY.place,
    SORTING.place,
    EPSG.place,
    EPSG.place,
    EPSG.place + 1,
    EPSG.after() - 1,
    NORTH.place,
    NORTH.after() - 1,
    EAST.place,
    EAST.after() - 1,
];

/// A text one too long, much too long, or with a zero in it.
fn alter_text(numbers: &mut Numbers, text: &mut Vec<u8>, most: usize) {
    match numbers.below(4) {
        0 => text.resize(most + 1, 7),
        1 => text.resize(most + numbers.index(300), 7),
        2 => text.resize(most, 7),
        _ => {
            let at = numbers.index(text.len() + 1);
            text.insert(at, 0);
        }
    }
}

fn alter_byte(numbers: &mut Numbers, byte: u8) -> u8 {
    match numbers.below(4) {
        0 => byte.wrapping_add(1),
        1 => byte ^ 1 << numbers.below(8),
        2 => numbers.below(8) as u8,
        _ => numbers.byte(),
    }
}

/// Numbers about the ends of fields of one to eight bytes, and some that go
/// round 2^64 when they are multiplied by what a part or an item has.
pub const EDGES: [u64; 24] = [
    0,
    1,
    0x7F,
    0x80,
    0xFF,
    0x100,
    0xFFFE,
    0xFFFF,
    0x1_0000,
    0x1_0001,
    0xFF_FFFF,
    0x100_0000,
    0x7FFF_FFFF,
    0x8000_0000,
    0xFFFF_FFFF,
    0x1_0000_0000,
    0x3FFF_FFFF_FFFF_FFFF,
    0x4000_0000_0000_0000,
    0x7FFF_FFFF_FFFF_FFFC,
    0x7FFF_FFFF_FFFF_FFFF,
    0x8000_0000_0000_0000,
    0xC000_0000_0000_0000,
    0xFFFF_FFFF_FFFF_FFF8,
    u64::MAX,
];

fn alter_number(numbers: &mut Numbers, number: u64) -> u64 {
    match numbers.below(6) {
        0 => number.wrapping_add(1),
        1 => number.wrapping_sub(1),
        2 => number ^ 1 << numbers.below(64),
        3 => number.wrapping_add(1 << numbers.pick(&[8, 16, 24, 32, 48, 61, 62, 63])),
        4 => numbers.any() >> numbers.below(64),
        _ => numbers.pick(&EDGES),
    }
}

/// The numbers of a record, the reference bytes as likely as four others.
const COLUMNS: [usize; 12] =
    [CODE, IN_GROUP, GROUP, REFERENCE, REFERENCE, REFERENCE, REFERENCE, GENERALISATION, WORD, PARTS, ITEMS, MARK];

/// One number of the table: a record's own, one of its parts and one of its
/// items are as likely as each other.
fn number_damage(numbers: &mut Numbers, table: &mut Table, rows: &[usize]) -> String {
    let row = numbers.pick(rows);
    let columns = table.numbers.get(row..row + ROW_WIDTH);
    let parts = columns.map_or(1, |columns| columns[PARTS]).clamp(1, 100_000) as usize;
    let items = columns.map_or(0, |columns| columns[ITEMS]).min(100_000) as usize;
    let parts_at = row + ROW_WIDTH;
    let items_at = parts_at + PART_WIDTH * parts;
    let at = match numbers.below(3) {
        0 => parts_at + numbers.index(PART_WIDTH * parts),
        1 if items > 0 => items_at + numbers.index(ITEM_WIDTH * items),
        _ => row + numbers.pick(&COLUMNS),
    };
    let Some(&number) = table.numbers.get(at) else {
        return "none".into();
    };
    let in_items = at.checked_sub(items_at);
    let is_item = |column: usize| in_items.is_some_and(|within| within % ITEM_WIDTH == column);
    let new = if at == row + REFERENCE && numbers.chance(2, 3) {
        alter_reference(numbers, number)
    } else if at == row + MARK && numbers.chance(2, 3) {
        alter_mark(numbers, number)
    } else if is_item(ITEM_TYPE) && numbers.chance(3, 4) {
        let any = numbers.below(256);
        numbers.pick(&[0, 1, 2, 3, 4, 8, 126, 127, 128, any])
    } else if is_item(ITEM_SCALE) && numbers.chance(1, 3) {
        numbers.pick(&[0, 0x7F, 0x80, 0xFE, 0xFF])
    } else if is_item(ITEM_LENGTH) && numbers.chance(1, 3) {
        numbers.pick(&[0, 1, 2, 3, 4, 8, 0xFFFF_FFFF])
    } else {
        alter_number(numbers, number)
    };
    table.numbers[at] = new;
    format!("number {at} from {number} to {new}")
}

/// Bits of the reference bytes, several at once, or one that is not carried.
fn alter_reference(numbers: &mut Numbers, reference: u64) -> u64 {
    let (one, other) = (1 << numbers.below(24), 1 << numbers.below(24));
    let any = numbers.any() & 0xFF_FFFF;
    reference ^ numbers.pick(&[one, one | other, any, bits::BINDING_VECTOR, bits::GRAPHICS])
}

/// The mark dropped or raised, or a number that is none.
fn alter_mark(numbers: &mut Numbers, mark: u64) -> u64 {
    let even = numbers.any() << 1;
    numbers.pick(&[mark ^ 1, mark ^ 1, mark ^ 1, 2, 3, 1 << 32, 1 << 32 | 1, even, u64::MAX])
}

/// Counts of parts and items near 2^64, and such that what they call for
/// comes round to the right number again.
fn counts_damage(numbers: &mut Numbers, table: &mut Table, rows: &[usize]) -> String {
    let row = numbers.pick(rows);
    let Some(columns) = table.numbers.get_mut(row..row + ROW_WIDTH) else {
        return "none".into();
    };
    let (parts, items) = (columns[PARTS], columns[ITEMS]);
    let (more_parts, more_items) = numbers.pick(&[
        (1 << 63, 0),
        (0, 1 << 62),
        (0, 1 << 63),
        (0, 3 << 62),
        (1 << 63, 1 << 62),
        (2, u64::MAX),
        (1u64.wrapping_neg() - 1, 1),
        (1 << 63, 1 << 63),
        (u64::MAX - parts, 0),
        (0, u64::MAX - items),
        (u64::MAX - parts, u64::MAX - items),
        (1 << 32, 0),
        (0, 1 << 32),
        (65536 - parts.min(65536), 0),
        (65537 - parts.min(65537), 0),
    ]);
    columns[PARTS] = parts.wrapping_add(more_parts);
    columns[ITEMS] = items.wrapping_add(more_items);
    format!("row {row}: {} parts, {} items", columns[PARTS], columns[ITEMS])
}

/// Counts of points about the mark or as they were, words that agree or do not,
/// and the mark as it was, there, gone or none.
fn mark_damage(numbers: &mut Numbers, table: &mut Table, rows: &[usize]) -> String {
    let row = numbers.pick(rows);
    if table.numbers.len() < row + ROW_WIDTH + PART_WIDTH {
        return "none".into();
    }
    let parts = table.numbers[row + PARTS].clamp(1, 100_000) as usize;
    let part = if numbers.chance(2, 3) { 0 } else { numbers.index(parts) };
    let at = row + ROW_WIDTH + PART_WIDTH * part + POINTS;
    let mut count = numbers.pick(&[65534, 65535, 65536, 131_072, 0xFFFF_FFFF, 1 << 32]);
    if let Some(points) = table.numbers.get_mut(at) {
        count = numbers.pick(&[*points, count, count]);
        *points = count;
    }
    let (word, mark) = (table.numbers[row + WORD], table.numbers[row + MARK]);
    let word = numbers.pick(&[word, count, count, count.wrapping_add(1), count.wrapping_sub(1)]);
    let none = alter_mark(numbers, mark);
    let mark = numbers.pick(&[mark, mark, 1, 1, 1, 0, none]);
    (table.numbers[row + WORD], table.numbers[row + MARK]) = (word, mark);
    format!("points {count} at {at}, the word {word}, the mark {mark}")
}

fn cut_damage(numbers: &mut Numbers, table: &mut Table) -> String {
    let at = numbers.index(table.numbers.len() + 1);
    match numbers.below(4) {
        0 => {
            let most = numbers.pick(&[1, 8, 1000]);
            let cut = (1 + numbers.index(most)).min(table.numbers.len());
            table.numbers.truncate(table.numbers.len() - cut);
            format!("{cut} numbers cut off")
        }
        1 => {
            let more = 1 + numbers.index(12);
            let same = numbers.pick(&[0, 1, u64::MAX]);
            table.numbers.extend((0..more).map(|_| same));
            format!("{more} numbers {same} put after")
        }
        2 => {
            table.numbers.insert(at, numbers.below(4));
            format!("a number put in at {at}")
        }
        _ if at < table.numbers.len() => {
            table.numbers.remove(at);
            format!("number {at} taken out")
        }
        _ => "none".into(),
    }
}

/// An element pool too short, too long, or with an element too wide.
fn elements_damage(numbers: &mut Numbers, table: &mut Table) -> String {
    let length = table.elements.len();
    match numbers.below(4) {
        0 => {
            let most = numbers.pick(&[1, 3, 50]);
            let cut = (1 + numbers.index(most)).min(length);
            table.elements.truncate(length - cut);
            format!("{cut} elements cut off")
        }
        1 => {
            let more = 1 + numbers.index(3);
            table.elements.resize(length + more, 0);
            format!("{more} elements put after")
        }
        _ if length > 0 => {
            let at = numbers.index(length);
            let old = table.elements[at];
            let wide = numbers.pick(&[16, 31, 32, 32, 63, 8]);
            let new = numbers.pick(&[old | 1 << wide, (1 << wide) - 1, 1 << wide, u64::MAX]);
            table.elements[at] = new;
            format!("element {at} from {old} to {new}")
        }
        _ => "none".into(),
    }
}

fn bytes_damage(numbers: &mut Numbers, table: &mut Table) -> String {
    let length = table.bytes.len();
    match numbers.below(3) {
        0 => {
            let most = numbers.pick(&[1, 3, 300]);
            let cut = (1 + numbers.index(most)).min(length);
            table.bytes.truncate(length - cut);
            format!("{cut} bytes cut off")
        }
        1 => {
            let more = 1 + numbers.index(3);
            table.bytes.resize(length + more, 0);
            format!("{more} bytes put after")
        }
        _ if length > 0 => {
            let at = numbers.index(length);
            table.bytes[at] = numbers.byte();
            format!("byte {at}")
        }
        _ => "none".into(),
    }
}

/// Another byte in place of a zero, which may have closed a value.
fn closing_damage(numbers: &mut Numbers, table: &mut Table, rows: &[usize]) -> String {
    let zeros = table.bytes.iter().filter(|&&byte| byte == 0).count();
    if zeros == 0 || rows.is_empty() {
        return bytes_damage(numbers, table);
    }
    let which = numbers.index(zeros);
    let (at, byte) = table.bytes.iter_mut().enumerate().filter(|(_, byte)| **byte == 0).nth(which).expect("counted");
    *byte = numbers.between(1, 255) as u8;
    format!("the zero at {at} of the bytes is none")
}
