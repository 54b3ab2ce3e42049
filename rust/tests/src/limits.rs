//! Sheets of exactly the limit, and beyond it; records about the last place that
//! three bytes hold; and code indexes of as many blocks as two bytes number, and
//! beyond them.
//!
//! One sheet of the limit takes the time and the memory of thousands of others.
//! So there are few; each is made once, altered where it is, and asked again.

use crate::blocks::{block_of, full, Entry, KINDS};
use crate::headers::{codes_in, headers, no_code};
use crate::heads::{head, SETTINGS};
use crate::judge::{Care, Judge};
use crate::large::SHORE;
use crate::numbers::Numbers;
use crate::phases::not_before;
use crate::sheets::{edited, put_sum_right, written, Made};
use crate::stored::put;
use crate::tables;
use second::{BlockKind, Head, Table};
use sxf_sys::fields::{descriptor, header, item, subobject, LIMIT, START};
use sxf_sys::index::{BLOCK_SIZE, PICK_WIDTH};
use sxf_sys::reference::{ELEMENT_SIZE, FLOATING, SEMANTICS, THREE_DIMENSIONS};
use sxf_sys::refusals::SHORT;
use sxf_sys::row::{self, ITEMS};
use sxf_sys::years;

/// How many sheets over the limit are zeros. These take no time: memory that is
/// zero is there only once it is looked at.
const TOO_LONG_SHEETS: u64 = 120;

/// By how many bytes tables are too long; one byte is tried for each shape.
const OVER: [usize; 3] = [2, 3, 600];

/// Places of last records: the last that three bytes hold, and the next two.
const PLACES: [usize; 3] = [(1 << 24) - 1, 1 << 24, (1 << 24) + 1];

/// How many blocks two bytes number.
const NUMBERED: usize = 1 << 16;

/// The first case of each kind, and how many there are.
const FIRST_TABLE: u64 = TOO_LONG_SHEETS;
const FIRST_PLACE: u64 = FIRST_TABLE + OVER.len() as u64;
const FIRST_INDEX: u64 = FIRST_PLACE + PLACES.len() as u64;
const FIRST_SHAPE: u64 = FIRST_INDEX + KINDS.len() as u64;
const RECORDS: u64 = FIRST_SHAPE + SHAPES.len() as u64;
pub const CASES: u64 = RECORDS + 1;

/// What fills a sheet.
#[derive(Clone, Copy, PartialEq, Eq, Debug)]
enum Shape {
    LongItem,
    Items,
    Points,
    /// The points of an island, behind a shore of a few.
    Island,
}

const SHAPES: [Shape; 4] = [Shape::LongItem, Shape::Items, Shape::Points, Shape::Island];

/// Runs one of them.
pub fn run(judge: &mut Judge, case: u64, numbers: &mut Numbers) {
    let number = |first: u64| (case - first) as usize;
    match case {
        ..FIRST_TABLE => too_long_sheet(judge, case as usize, numbers),
        FIRST_TABLE..FIRST_PLACE => too_long_table(judge, OVER[number(FIRST_TABLE)], numbers),
        FIRST_PLACE..FIRST_INDEX => last_record_at(judge, PLACES[number(FIRST_PLACE)], numbers),
        FIRST_INDEX..FIRST_SHAPE => long_index(judge, KINDS[number(FIRST_INDEX)], numbers),
        FIRST_SHAPE..RECORDS => at_limit(judge, SHAPES[number(FIRST_SHAPE)], numbers),
        _ => most_records(judge, numbers),
    }
}

/// A sheet over the limit is refused before a byte of it is looked at.
fn too_long_sheet(judge: &mut Judge, case: usize, numbers: &mut Numbers) {
    let length = LIMIT + 1 + case * case;
    let sheet = vec![0; length];
    let year = SETTINGS[case % SETTINGS.len()];
    judge.note(format!("{length} zeros"));
    judge.reads_in_place(&sheet, &[(year, Care::Whole), (2005, Care::Check)], numbers);
}

/// A table for so many bytes too many.
fn too_long_table(judge: &mut Judge, over: usize, numbers: &mut Numbers) {
    judge.note(format!("a table for {over} bytes too many"));
    let (year, head, table) = filled(numbers, Shape::LongItem, LIMIT + over);
    is_too_long(judge, year, &head, &table, &[0, 600]);
}

/// A table that is too long is refused, whatever the room.
fn is_too_long(judge: &mut Judge, year: u32, head: &Head, table: &Table, rooms: &[usize]) {
    let due = second::write(year, head, table, usize::MAX);
    judge.same(|| "whether the table is too long".into(), due.is_err(), true);
    for &room in rooms {
        judge.write(year, head, table, room, &due);
    }
}

/// A sheet whose last record is at this place, indexed and selected.
fn last_record_at(judge: &mut Judge, place: usize, numbers: &mut Numbers) {
    judge.note(format!("a last record at {place:#x}"));
    let (year, head, mut table) = filled(numbers, Shape::LongItem, place);
    tables::record(&mut table, numbers, 1, 7, &[0]);
    let Made { sheet, table, .. } = edited(numbers, year, head, table);
    let rows: Vec<_> = tables::rows(&table).collect();
    let code = rows[rows.len() - 1].record.code as u32;
    let last = headers(&sheet).last();
    judge.same(|| "place of the last record".into(), last, Some(place));
    judge.indexed_once(&sheet, year, rows.len(), code);
    let hop = judge.first_with(&sheet, code);
    judge.accepted = hop.found == 1;
}

/// An index of as many blocks as two bytes number, of one fewer, and of one more,
/// whose number cannot be right.
fn long_index(judge: &mut Judge, kind: BlockKind, numbers: &mut Numbers) {
    judge.note(format!("indexes of about {NUMBERED} blocks, {kind:?}"));
    let entry = |number: usize| Entry { code: number as u32, place: !number as u32, localisation: 1 };
    let block = |number: usize| block_of(kind, number, &vec![entry(number); full(kind)]);
    let index = (0..=NUMBERED).map(block).collect::<Vec<_>>().into_flattened();
    for blocks in [NUMBERED - 1, NUMBERED, NUMBERED + 1] {
        let index = &index[..BLOCK_SIZE * blocks];
        let before = judge.disagreements.len();
        judge.accepted |= judge.index_check(index);
        judge.context(before, || format!("{blocks} blocks"));
    }
    let picks = PICK_WIDTH * full(kind);
    let room = numbers.pick(&[picks, picks - 1]);
    judge.index_select(&index[..BLOCK_SIZE * NUMBERED], NUMBERED as u32 - 1, room);
    // The last of them as a piece.
    judge.index_check(&index[..BLOCK_SIZE * NUMBERED - 1]);
}

/// A table that fills the limit is written, and read; with one byte more it is
/// refused, and so is the sheet.
fn at_limit(judge: &mut Judge, shape: Shape, numbers: &mut Numbers) {
    judge.note(format!("{shape:?} for {LIMIT} bytes, and one more"));
    let (year, head, mut table) = filled(numbers, shape, LIMIT);
    with_a_byte_more(&mut table, |longer| is_too_long(judge, year, &head, longer, &[LIMIT + 1, 0]));
    let Made { table, mut sheet, .. } = edited(numbers, year, head, table);
    judge.same(|| "length of the sheet".into(), sheet.len(), LIMIT);
    drop(table);
    judge.reads_in_place(&sheet, &[(year, Care::Large)], numbers);
    let accepted = judge.accepted;
    hops(judge, &mut sheet, numbers);
    sheet.push(0);
    judge.reads_in_place(&sheet, &[(year, Care::Once)], numbers);
    judge.accepted = accepted;
}

/// As many records as a sheet of the limit has room for, each of them a header,
/// but the last a little longer; the code of each is its number. They are written
/// where they stand, since their table takes more memory than anything else.
fn most_records(judge: &mut Judge, numbers: &mut Numbers) {
    let records = (LIMIT - START) / header::SIZE;
    judge.note(format!("{records} records"));
    let year = SETTINGS[0];
    let mut table = Table::default();
    tables::record(&mut table, numbers, 1, 7, &[0]);
    let last = LIMIT - START - header::SIZE * (records - 1);
    fill_up(&mut table, numbers, last);
    let Made { mut sheet, .. } = written(year, head(numbers, year), table);
    let last = sheet.split_off(START + header::SIZE);
    let first = sheet[START..].to_vec();
    sheet.reserve_exact(LIMIT + 1 - sheet.len());
    (2..records).for_each(|_| sheet.extend_from_slice(&first));
    sheet.extend_from_slice(&last);
    for record in 0..records {
        put(&mut sheet, header::CODE.at(START + header::SIZE * record), record as u32);
    }
    put(&mut sheet, descriptor::COUNT, records as u32);
    put_sum_right(&mut sheet);

    judge.same(|| "length of the sheet".into(), sheet.len(), LIMIT);
    let answer = judge.check(&sheet, year);
    judge.same(|| "records".into(), answer.records, records as u64);
    judge.indexed_once(&sheet, year, records, records as u32 - 1);
    judge.record_at(&sheet, year, records as u64 - 1);
    judge.record_at(&sheet, year, records as u64);
    judge.first_with(&sheet, records as u32 - 1);
    judge.first_with(&sheet, records as u32);
    judge.accepted = true;
    sheet.push(0);
    judge.check(&sheet, year);
}

/// Hops over a sheet of the limit: to its last record, which gets a code that no
/// other has, and to one that is not there, also where more records are counted
/// than any sheet has room for.
fn hops(judge: &mut Judge, sheet: &mut [u8], numbers: &mut Numbers) {
    let mut codes = codes_in(sheet);
    let last_code = no_code(&codes, numbers);
    codes.push(last_code);
    let absent = no_code(&codes, numbers);
    let last = headers(sheet).last().unwrap_or(START);
    put(sheet, header::CODE.at(last), last_code);
    let answer = judge.first_with(sheet, last_code);
    judge.same(|| "hop to the last record".into(), (answer.found, answer.at), (1, last as u64));
    put(sheet, descriptor::COUNT, u32::MAX);
    let answer = judge.first_with(sheet, absent);
    judge.same(|| "hop past the last record".into(), (answer.number, answer.place), (SHORT, LIMIT as u64));
}

/// A head and a table that write to exactly so many bytes.
fn filled(numbers: &mut Numbers, shape: Shape, length: usize) -> (u32, Head, Table) {
    let since = match shape {
        Shape::LongItem => years::TYPE_128,
        Shape::Points | Shape::Island => years::MARK_65535,
        Shape::Items => SETTINGS[0],
    };
    let year = not_before(numbers, since);
    let mut table = Table::default();
    let taken = fill(&mut table, numbers, shape, length - 5000);
    fill_up(&mut table, numbers, length - START - taken);
    (year, head(numbers, year), table)
}

/// Adds a record of about so many bytes, and tells how many it takes. A value of
/// zeros is closed, and costs no time to make.
fn fill(table: &mut Table, numbers: &mut Numbers, shape: Shape, about: usize) -> usize {
    match shape {
        Shape::LongItem => {
            tables::record(table, numbers, SEMANTICS, 0, &[0]);
            let value = about & !1;
            table.numbers[ITEMS] = 1;
            table.numbers.extend(row::Item { code: 1, kind: 128, scale: 255, length: value as u64 }.numbers());
            table.bytes = vec![0; value];
            header::SIZE + item::LONG_LENGTH.after() + value
        }
        Shape::Items => {
            tables::record(table, numbers, SEMANTICS, 0, &[0]);
            const VALUE: usize = 512;
            const ITEM: usize = item::SIZE + VALUE;
            let items = about / ITEM;
            table.numbers[ITEMS] = items as u64;
            for _ in 0..items {
                table.numbers.extend(row::Item { code: 2, kind: 127, scale: 255, length: VALUE as u64 }.numbers());
            }
            table.bytes = vec![0; VALUE * items];
            header::SIZE + ITEM * items
        }
        Shape::Points => {
            let reference = ELEMENT_SIZE | FLOATING | THREE_DIMENSIONS;
            let point = tables::widths(reference).point();
            let count = about / point;
            tables::record(table, numbers, reference, 0, &[count as u64]);
            header::SIZE + point * count
        }
        Shape::Island => {
            let reference = ELEMENT_SIZE | FLOATING;
            let point = tables::widths(reference).point();
            let count = about / point;
            tables::record(table, numbers, reference, 0, &[SHORE, count as u64]);
            header::SIZE + subobject::SIZE + point * (SHORE as usize + count)
        }
    }
}

/// The fewest bytes of an item of type 0, and the most of one that can still
/// grow by one: a scale byte of 255 is a value of 256 bytes.
const LEAST_ITEM: usize = item::SIZE + 1;
const LAST_ITEM: usize = item::SIZE + 255;

/// Adds a last record of exactly so many bytes, in items whose last can grow by
/// a byte.
pub fn fill_up(table: &mut Table, numbers: &mut Numbers, bytes: usize) {
    let last = table.numbers.len();
    tables::record(table, numbers, SEMANTICS, 0, &[0]);
    let mut left = bytes - header::SIZE;
    while left > 0 {
        let whole = if left <= LAST_ITEM { left } else { LAST_ITEM - LEAST_ITEM };
        let value = whole - item::SIZE;
        table.numbers[last + ITEMS] += 1;
        table.numbers.extend(row::Item { code: 3, kind: 0, scale: value as u64 - 1, length: value as u64 }.numbers());
        table.bytes.resize(table.bytes.len() + value, 0);
        left -= whole;
    }
}

/// Asks something of a table whose last item, of type 0, is one byte longer.
fn with_a_byte_more(table: &mut Table, ask: impl FnOnce(&Table)) {
    let last = table.numbers.len() - row::ITEM_WIDTH;
    table.numbers[last + row::ITEM_SCALE] += 1;
    table.numbers[last + row::ITEM_LENGTH] += 1;
    table.bytes.push(0);
    ask(table);
    table.numbers[last + row::ITEM_SCALE] -= 1;
    table.numbers[last + row::ITEM_LENGTH] -= 1;
    table.bytes.pop();
}
