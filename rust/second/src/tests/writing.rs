//! Writing: the documents' cases, each refusal and its place, and their order.

use super::*;
use crate::{read, write};

const ROOM: usize = usize::MAX;

/// The refusal of a table, which behind the record of table P is the same and
/// stands as much further on.
fn refusal(year: u32, table: &Table) -> Refusal {
    let refused = |table: &Table| write(year, &head_e(), table, ROOM).expect_err("a refusal");
    let refusal = refused(table);
    let mut second = table_p();
    let place = refusal.place + second.numbers.len() as u64;
    second.numbers.extend_from_slice(&table.numbers);
    second.elements.extend_from_slice(&table.elements);
    second.bytes.extend_from_slice(&table.bytes);
    assert_eq!(refused(&second), Refusal { place, ..refusal });
    refusal
}

/// The table with one number changed.
fn with(mut table: Table, index: u64, number: u64) -> Table {
    table.numbers[index as usize] = number;
    table
}

/// The refusal of table Q with one number changed, at setting 2017.
fn refusal_q(index: u64, number: u64) -> Refusal {
    refusal(2017, &with(table_q(), index, number))
}

/// A record of parts, each with points and text length, no items and no mark.
fn table_of(reference: u64, word: u64, parts: &[(u64, u64)], elements: u64) -> Table {
    let mut numbers = vec![0, 0, 0, reference, 255, word, parts.len() as u64, 0, 0];
    numbers.extend(parts.iter().flat_map(|part| [part.0, part.1]));
    Table { numbers, elements: vec![1; elements as usize], bytes: vec![] }
}

/// Table Q with another item.
fn table_item(type_byte: u64, scale: u64, length: u64, value: &[u8]) -> Table {
    let mut table = table_q();
    table.numbers[ITEM_CODE as usize..].copy_from_slice(&[1, type_byte, scale, length]);
    table.bytes = value.to_vec();
    table
}

/// Where the numbers of table Q's item stand.
const ITEM_CODE: u64 = 11;
const ITEM_TYPE: u64 = 12;
const ITEM_SCALE: u64 = 13;
const VALUE_LENGTH: u64 = 14;

#[test]
fn documents_sheets_are_written() {
    let empty = Table::default();
    assert_eq!(write(1999, &head_e(), &empty, ROOM), Ok(sheet_e()));
    assert_eq!(write(1999, &head_e(), &table_p(), ROOM), Ok(sheet_p()));
    assert_eq!(write(1999, &head_e(), &table_q(), ROOM), Ok(sheet_q()));
}

#[test]
fn setting_comes_first() {
    let mut head = head_e();
    head.date = vec![0];
    let result = write(2005, &head, &table_p(), 0);
    assert_eq!(result, Err(refused(16, 0)));
}

#[test]
fn texts() {
    let written = |edit: fn(&mut Head, Vec<u8>), text: &[u8]| {
        let mut head = head_e();
        edit(&mut head, text.to_vec());
        write(1999, &head, &table_p(), ROOM)
    };
    type Edit = fn(&mut Head, Vec<u8>);
    let fields: [(Edit, usize, u64); 4] = [
        (|head, text| head.date = text, 12, 16),
        (|head, text| head.designation = text, 32, 28),
        (|head, text| head.title = text, 32, 64),
        (|head, text| head.designation2 = text, 32, 408),
    ];
    for (edit, length, place) in fields {
        assert!(written(edit, &vec![b'x'; length - 1]).is_ok());
        let refusal = Err(refused(6, place));
        assert_eq!(written(edit, &vec![b'x'; length]), refusal);
        assert_eq!(written(edit, &vec![b'x'; 100_000]), refusal);
        assert_eq!(written(edit, &[0]), refusal);
        assert_eq!(written(edit, b"x\0"), refusal);
    }
}

#[test]
fn head_by_place() {
    let faulty = || {
        let mut head = head_e();
        head.rest[0] = 7;
        head.rest[2] = 1;
        head.rest[4] = 1;
        head.rest[303] = 1;
        head.designation2 = vec![0];
        head.carried = [3, 3, 6, 1];
        head
    };
    let mut head = faulty();
    let mut next = |mend: fn(&mut Head), refusal: Refusal| {
        assert_eq!(write(1999, &head, &table_p(), ROOM), Err(refusal));
        mend(&mut head);
    };
    next(|head| head.rest[0] = 0x9B, refused(7, 96));
    next(|head| head.rest[2] = 0, too_new(98, 2006));
    next(|head| head.rest[4] = 0, too_new(100, 2017));
    next(|head| head.rest[303] = 0, too_new(392, 2004));
    next(|head| head.designation2.clear(), refused(6, 408));
    next(|head| head.carried[1] = 2, refused(7, 445));
    next(|head| head.carried[2] = 5, refused(7, 446));
    next(|head| head.carried[3] = 0, too_new(447, 2017));
    assert!(write(1999, &head, &table_p(), ROOM).is_ok());
}

#[test]
fn numbers_too_large() {
    // Table Q's numbers, in order, and the least that is too large for each.
    let least = [
        (0, 1 << 32),
        (1, 1 << 16),
        (2, 1 << 16),
        (3, 1 << 24),
        (4, 1 << 8),
        (5, 1 << 32),
        (MARK, 2),
        (POINTS, 1 << 32),
        (TEXT_LENGTH, 1 << 8),
        (ITEM_CODE, 1 << 16),
        (ITEM_TYPE, 1 << 8),
        (ITEM_SCALE, 1 << 8),
        (VALUE_LENGTH, 1 << 32),
    ];
    for (index, number) in least {
        for number in [number, number + 2, 1 << 63, u64::MAX] {
            assert_eq!(refusal_q(index, number), refused(14, index));
        }
    }
    // Parts and items call for numbers that are not there.
    for index in [PARTS, ITEMS] {
        for number in [2, 1 << 32, 1 << 62, 1 << 63, u64::MAX] {
            assert_eq!(refusal_q(index, number), refused(14, 0));
        }
    }
    // As many parts as the field allows, and one more.
    let parts = vec![(0, 0); 65536];
    assert!(write(2017, &head_e(), &table_of(2, 0, &parts, 0), ROOM).is_ok());
    let parts = vec![(0, 0); 65537];
    assert_eq!(refusal(2017, &table_of(2, 0, &parts, 0)), refused(14, PARTS));
}

#[test]
fn rows() {
    let q = table_q();
    // A row cut short is refused at its start, before its other numbers.
    for length in 1..q.numbers.len() {
        let mut table = q.clone();
        table.numbers.truncate(length);
        table.numbers[0] = u64::MAX;
        assert_eq!(refusal(2017, &table), refused(14, 0));
    }
    let mut second = q.clone();
    second.numbers.extend([u64::MAX; 8]);
    assert_eq!(refusal(2017, &second), refused(14, 15));
    // The sums of both counts come round to the numbers left, modulo 2^64.
    assert_eq!(refusal_q(PARTS, (1 << 63) + 1), refused(14, 0));
    assert_eq!(refusal_q(ITEMS, (1 << 62) + 1), refused(14, 0));
    // No parts; a flag without items; items without the flag.
    assert_eq!(refusal_q(PARTS, 0), refused(14, PARTS));
    let flag_only = with(table_p(), REFERENCE, 0x0202);
    assert_eq!(refusal(2017, &flag_only), refused(14, ITEMS));
    assert_eq!(refusal_q(REFERENCE, 2), refused(14, ITEMS));
}

#[test]
fn reference_number() {
    let at = |number, year| refusal(year, &with(table_q(), REFERENCE, number));
    assert_eq!(at(0x0206, 2017), refused(7, 3));
    assert_eq!(at(0x0232, 1999), refused(7, 3));
    assert_eq!(at(0x01_0B12, 1999), too_new(3, 2016));
    assert_eq!(at(0x01_0B02, 1999), too_new(3, 2015));
    assert_eq!(at(0x01_0A02, 1999), too_new(3, 2008));
    assert_eq!(at(0x01_0A02, 2008), refused(9, 3));
    assert_eq!(at(0xD1_0202, 1999), refused(7, 3));
    assert_eq!(at(0x08_0202, 1999), refused(7, 3));
    assert_eq!(at(0xD0_0202, 1999), too_new(3, 2004));
    assert_eq!(at(0xD0_0202, 2004), refused(9, 3));
    // The size of a number comes before what it says.
    assert_eq!(at(0x100_0206, 2017), refused(14, 3));
}

#[test]
fn points_without_the_mark() {
    let refusal_of = |word, parts: &[(u64, u64)], elements| refusal(1999, &table_of(2, word, parts, elements));
    // The pool ends early, or is left over.
    assert_eq!(refusal_of(0, &[(1, 0)], 1), refused(14, POINTS));
    assert_eq!(refusal_of(0, &[(1, 0)], 3), refused(14, 11));
    assert_eq!(refusal_of(0, &[(1, 0), (2, 0)], 5), refused(14, LATER_POINTS));
    // The first count: size, COUNT, pool. The word is not looked at.
    let first = |word, count| refusal_of(word, &[(count, 0)], 0);
    for word in [0, 65534, 65535, 65536, MOST] {
        assert_eq!(first(word, u64::MAX), refused(14, POINTS));
        assert_eq!(first(word, 1 << 32), refused(14, POINTS));
        assert_eq!(first(word, MOST), refused(11, POINTS));
        assert_eq!(first(word, 65536), refused(11, POINTS));
        assert_eq!(first(word, 65535), refused(11, POINTS));
        assert_eq!(first(word, 65534), refused(14, POINTS));
    }
    // A later count: size, COUNT, pool.
    let later = |count| refusal_of(9, &[(0, 0), (count, 0)], 0);
    assert_eq!(later(u64::MAX), refused(14, LATER_POINTS));
    assert_eq!(later(1 << 32), refused(14, LATER_POINTS));
    assert_eq!(later(MOST), refused(11, LATER_POINTS));
    assert_eq!(later(65536), refused(11, LATER_POINTS));
    assert_eq!(later(65535), refused(14, LATER_POINTS));
}

#[test]
fn points_under_the_mark() {
    let refusal_of = |word, parts: &[(u64, u64)]| refusal(2004, &with(table_of(2, word, parts, 0), MARK, 1));
    // The first count: size, COUNT, pool.
    for count in [0, 1, 10, 65534, 65535, 65536, MOST - 1] {
        assert_eq!(refusal_of(count, &[(u64::MAX, 0)]), refused(14, POINTS));
        assert_eq!(refusal_of(count, &[(1 << 32 | count, 0)]), refused(14, POINTS));
        assert_eq!(refusal_of(count + 1, &[(count, 0)]), refused(11, POINTS));
        assert_eq!(refusal_of(count, &[(count + 1, 0)]), refused(11, POINTS));
        assert_eq!(refusal_of(count ^ 1 << 16, &[(count, 0)]), refused(11, POINTS));
        assert_eq!(refusal_of(count + 1, &[(count + 1, 0)]), refused(14, POINTS));
    }
    // A later count: size, pool.
    let later = |count| refusal_of(0, &[(0, 0), (count, 0)]);
    assert_eq!(later(u64::MAX), refused(14, LATER_POINTS));
    assert_eq!(later(1 << 32), refused(14, LATER_POINTS));
    assert_eq!(later(MOST), refused(14, LATER_POINTS));
    assert_eq!(later(65536), refused(14, LATER_POINTS));
    assert_eq!(later(1), refused(14, LATER_POINTS));
}

#[test]
fn the_marks_number() {
    let at = |mark, year| refusal(year, &with(table_p(), MARK, mark));
    for over in [2, 3, 255, 256, 257, 65535, 65536, 1 << 32, (1 << 32) + 1, 1 << 63, u64::MAX] {
        assert_eq!(at(over, 1999), refused(14, MARK));
        assert_eq!(at(over, 2017), refused(14, MARK));
    }
    assert_eq!(at(1, 1999), too_new(MARK, 2004));
    // P's word is 0, and its first count is 1.
    assert_eq!(at(1, 2004), refused(11, POINTS));
}

/// Faults are mended one after another; each time the next one is refused.
#[test]
fn order_about_the_mark() {
    let mut table = table_of(0x0202, 9, &[(1 << 32, 1), (65536, 0)], 20);
    let mut next = |year, due, index, number| {
        assert_eq!(refusal(year, &table), due);
        table.numbers[index as usize] = number;
    };
    next(1999, refused(14, ITEMS), MARK, 2);
    next(1999, refused(14, ITEMS), MARK, 1);
    next(1999, refused(14, ITEMS), REFERENCE, 2);
    next(1999, too_new(MARK, 2004), MARK, 2);
    next(1999, refused(14, MARK), MARK, 0);
    next(1999, refused(14, POINTS), POINTS, 65535);
    next(1999, refused(11, POINTS), MARK, 1);
    next(2004, refused(11, POINTS), POINTS, 9);
    next(2004, refused(14, TEXT_LENGTH), TEXT_LENGTH, 0);
    next(2004, refused(14, LATER_POINTS), MARK, 0);
    next(2004, refused(11, LATER_POINTS), LATER_POINTS, 1);
    assert!(write(1999, &head_e(), &table, ROOM).is_ok());
}

/// Writes a table that is right, reads it back, and gives the sheet.
fn written_and_read(table: &Table) -> Vec<u8> {
    let sheet = write(2004, &head_e(), table, ROOM).unwrap();
    assert_eq!(&read(&sheet, 2004).unwrap().table, table);
    sheet
}

#[test]
fn any_count_is_written_under_the_mark() {
    for count in [0, 1, 10, 65534, 65535, 65536] {
        let sheet = written_and_read(&with(table_of(2, count, &[(count, 0)], 2 * count), MARK, 1));
        assert_eq!(sheet[476..480], (count as u32).to_le_bytes());
        assert_eq!(sheet[482..484], [0xFF, 0xFF]);
    }
    // The largest count that goes without.
    let sheet = written_and_read(&table_of(2, 9, &[(65534, 0)], 2 * 65534));
    assert_eq!(sheet[476..484], [9, 0, 0, 0, 0, 0, 0xFE, 0xFF]);
}

#[test]
fn an_island_behind_a_short_shore_is_written() {
    for island in ISLANDS {
        let table = table_of(2, SHORE, &[(SHORE, 0), (island, 0)], 2 * (SHORE + island));
        if island > 65535 {
            assert_eq!(refusal(2017, &table), refused(11, LATER_POINTS));
        } else {
            written_and_read(&table);
        }
        let sheet = written_and_read(&with(table, MARK, 1));
        let [low, high, upper_low, upper_high] = (island as u32).to_le_bytes();
        assert_eq!(sheet[524..528], [upper_low, upper_high, low, high]);
    }
}

#[test]
fn elements_too_wide() {
    let shapes: [(u64, &[u32]); 8] = [
        (0x00_0002, &[16, 16]),
        (0x04_0002, &[32, 32]),
        (0x00_0402, &[32, 32]),
        (0x04_0402, &[64, 64]),
        (0x02_0002, &[16, 16, 32]),
        (0x06_0002, &[32, 32, 32]),
        (0x02_0402, &[32, 32, 32]),
        (0x06_0402, &[64, 64, 64]),
    ];
    for (reference, widths) in shapes {
        let mut table = table_of(reference, 0, &[(1, 0), (1, 0)], 0);
        let widest: Vec<u64> = widths.iter().map(|width| u64::MAX >> (64 - width)).collect();
        table.elements = [widest.clone(), widest].concat();
        let sheet = write(1999, &head_e(), &table, ROOM).unwrap();
        assert_eq!(read(&sheet, 1999).unwrap().table, table);
        for at in 0..table.elements.len() {
            let mut wide = table.clone();
            if let Some(more) = wide.elements[at].checked_add(1) {
                wide.elements[at] = more;
                let part = if at < widths.len() { POINTS } else { LATER_POINTS };
                assert_eq!(refusal(1999, &wide), refused(14, part));
            }
        }
    }
}

#[test]
fn part_texts() {
    let text = |reference, length, bytes: &[u8]| {
        let mut table = table_of(reference, 0, &[(1, length)], 2);
        table.bytes = bytes.to_vec();
        write(2017, &head_e(), &table, ROOM)
    };
    assert_eq!(text(2, 1, b"x"), Err(refused(14, TEXT_LENGTH)));
    assert_eq!(text(0x08_0003, 256, &[1; 256]), Err(refused(14, TEXT_LENGTH)));
    assert_eq!(text(0x08_0003, 2, b"x"), Err(refused(14, TEXT_LENGTH)));
    assert_eq!(text(0x08_0003, 0, b"x"), Err(refused(14, 11)));
    let sheet = text(0x08_0003, 2, b"x\0").unwrap();
    assert_eq!(sheet[488..], [2, b'x', 0, 0]);
    assert!(text(0x08_0005, 255, &[0; 255]).is_ok());
}

#[test]
fn items() {
    let written = |table: &Table, year| write(year, &head_e(), table, ROOM);
    let at = |table: Table, year| refusal(year, &table);
    // Types.
    assert_eq!(at(table_item(3, 256, 9, &[]), 2017), refused(12, ITEM_TYPE));
    assert_eq!(at(table_item(128, 256, 9, &[]), 2008), too_new(ITEM_TYPE, 2012));
    // Scales.
    for whole in [1, 2, 4] {
        assert_eq!(at(table_item(whole, 0x80, 9, &[]), 2017), refused(12, ITEM_SCALE));
    }
    assert_eq!(at(table_item(128, 0xFE, 9, &[]), 2017), refused(12, ITEM_SCALE));
    // Value lengths: TABLE, SEMANTIC for type 128, the pool, TEXT.
    let lengths = [
        (0, 3, 4),
        (126, 255, 256),
        (127, 3, 8),
        (127, 255, 512),
        (1, 3, 1),
        (2, 3, 2),
        (4, 3, 4),
        (8, 3, 8),
        (8, 0x80, 8),
        (128, 255, 2),
        (128, 255, 70_000),
    ];
    for (type_byte, scale, length) in lengths {
        let item = |length, value: &[u8]| table_item(type_byte, scale, length, value);
        let mut value = vec![0; length as usize];
        value[0] = u8::from(length > 2);
        let table = item(length, &value);
        let sheet = written(&table, 2012).unwrap();
        assert_eq!(read(&sheet, 2012).unwrap().table, table);
        if type_byte != 128 {
            assert_eq!(at(item(length + 1, &value), 2012), refused(14, VALUE_LENGTH));
            assert_eq!(at(item(length - 1, &value), 2012), refused(14, VALUE_LENGTH));
            assert_eq!(at(item(u64::MAX, &value), 2012), refused(14, VALUE_LENGTH));
        }
        let early = &value[1..];
        assert_eq!(at(item(length, early), 2012), refused(14, VALUE_LENGTH));
        let closing = match type_byte {
            0 | 126 => 1,
            127 | 128 => 2,
            _ => 0,
        };
        for back in 1..=closing {
            let mut open = value.clone();
            open[length as usize - back] = 1;
            assert_eq!(at(item(length, &open), 2012), refused(6, VALUE_LENGTH));
        }
    }
    let long = |length| at(table_item(128, 0xFF, length, &[]), 2017);
    assert_eq!(long(0), refused(12, VALUE_LENGTH));
    assert_eq!(long(1), refused(12, VALUE_LENGTH));
    assert_eq!(long(3), refused(12, VALUE_LENGTH));
    assert_eq!(long(MOST), refused(12, VALUE_LENGTH));
    assert_eq!(long(MOST - 1), refused(14, VALUE_LENGTH));
    assert_eq!(long(1 << 32), refused(14, VALUE_LENGTH));
}

#[test]
fn pools_left_over() {
    let mut table = table_q();
    table.bytes.push(0);
    assert_eq!(refusal(2017, &table), refused(14, 15));
    let only_pool = Table { elements: vec![1], ..Table::default() };
    assert_eq!(refusal(2017, &only_pool), refused(14, 0));
}

#[test]
fn room() {
    let written = |room| write(2017, &head_e(), &table_q(), room);
    assert_eq!(written(493), Err(refused(15, 0)));
    assert_eq!(written(0), Err(refused(15, 0)));
    assert!(written(494).is_ok());
    // The table's refusals come before ROOM.
    let mut table = table_q();
    table.bytes.push(0);
    let refusal = write(2017, &head_e(), &table, 0);
    assert_eq!(refusal, Err(refused(14, 15)));
}
