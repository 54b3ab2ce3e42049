//! Sheets and tables by chance: round trips, later settings, no panic.

use super::*;
use crate::{check, cleared, first_with, read, record_at, write, Hit, Hop};

const YEARS: [u32; 9] = [1999, 2004, 2006, 2008, 2012, 2014, 2015, 2016, 2017];

/// Numbers by chance, the same at each run (xorshift).
struct Chance(u64);

impl Chance {
    fn next(&mut self) -> u64 {
        self.0 ^= self.0 << 13;
        self.0 ^= self.0 >> 7;
        self.0 ^= self.0 << 17;
        self.0
    }

    fn below(&mut self, end: u64) -> u64 {
        self.next() % end
    }

    fn bytes(&mut self, length: u64) -> Vec<u8> {
        (0..length).map(|_| self.next() as u8).collect()
    }
}

fn add_record(chance: &mut Chance, table: &mut Table) {
    let localisation = chance.below(6);
    let has_text = matches!(localisation, 3 | 5) && chance.below(2) == 0;
    let items = chance.below(4);
    let parts: Vec<u64> = (0..1 + chance.below(3)).map(|_| chance.below(4)).collect();
    let mark = u64::from(chance.below(7) == 0);
    let any_word = chance.below(1 << 32);
    let byte_20 = localisation | chance.below(2) << 4;
    let byte_21 = chance.below(256) & 0xF5 | u64::from(items > 0) << 1;
    let byte_22 = chance.below(256) & 0xE6 | u64::from(has_text) << 3;
    table.numbers.extend([
        chance.below(1 << 32),
        chance.below(1 << 16),
        chance.below(1 << 16),
        byte_20 | byte_21 << 8 | byte_22 << 16,
        chance.below(256),
        if mark == 1 { parts[0] } else { any_word },
        parts.len() as u64,
        items,
        mark,
    ]);
    let width = match (byte_21 & 4 != 0, byte_22 & 4 != 0) {
        (false, false) => 16,
        (true, true) => 64,
        _ => 32,
    };
    let height = if byte_22 & 2 == 0 { 0 } else { width.max(32) };
    for points in parts {
        let text_length = if has_text { chance.below(4) } else { 0 };
        table.numbers.extend([points, text_length]);
        for _ in 0..points {
            for bits in [width, width, height] {
                if bits > 0 {
                    table.elements.push(chance.next() >> (64 - bits));
                }
            }
        }
        table.bytes.extend(chance.bytes(text_length));
    }
    for _ in 0..items {
        add_item(chance, table);
    }
}

fn add_item(chance: &mut Chance, table: &mut Table) {
    let type_byte = [0, 1, 2, 4, 8, 126, 127, 128][chance.below(8) as usize];
    let scale = match type_byte {
        128 => 0xFF,
        0 | 126 | 127 => chance.below(5),
        _ => chance.below(0x80),
    };
    let (length, closing) = match type_byte {
        0 | 126 => (scale + 1, 1),
        127 => (2 * scale + 2, 2),
        128 => (2 + 2 * chance.below(5), 2),
        number => (number, 0),
    };
    let code = chance.below(1 << 16);
    table.numbers.extend([code, type_byte, scale, length]);
    table.bytes.extend(chance.bytes(length - closing));
    table.bytes.extend(vec![0; closing as usize]);
}

fn table_by_chance(chance: &mut Chance) -> Table {
    let mut table = Table::default();
    for _ in 0..chance.below(4) {
        add_record(chance, &mut table);
    }
    table
}

fn head_by_chance(chance: &mut Chance) -> Head {
    let mut head = head_e();
    head.scale = chance.next() as u32;
    for byte in &mut head.rest[8..] {
        *byte = chance.next() as u8;
    }
    head.title = vec![b'x'; chance.below(32) as usize];
    head.carried = [0x87, 1, 4, chance.below(4) as u8];
    head
}

/// Whatever is read is written back with its tails cleared, checking tells its
/// sizes or its refusal, and later settings read the same.
fn hold_sheet(sheet: &[u8]) -> bool {
    let mut last = None;
    for year in YEARS {
        let reading = read(sheet, year);
        if let Some(last) = last {
            assert_eq!(reading, Ok(last));
        }
        if let Ok(reading) = &reading {
            let written = write(year, &reading.head, &reading.table, sheet.len());
            assert_eq!(written, Ok(cleared(sheet)));
            assert_eq!(written.as_deref() == Ok(sheet), reading.tails.all_clean());
        }
        assert_eq!(check(sheet, year), reading.as_ref().map(sizes_of).map_err(|refusal| *refusal));
        let answer = record_at(sheet, year, 0);
        match &reading {
            Err(refusal) => assert_eq!(answer, Err(*refusal)),
            Ok(reading) => assert_eq!(answer.is_ok(), reading.records > 0),
        }
        last = reading.ok();
    }
    last.is_some()
}

/// On an accepted sheet hopping answers what the full reading answers: for the
/// code of each record, and for one that none has.
fn hold_hops(sheet: &[u8], reading: &Reading) {
    let records: Vec<_> = (0..reading.records).map(|number| record_at(sheet, 2017, number).unwrap()).collect();
    let codes: Vec<u64> = records.iter().map(|record| record.code).collect();
    let absent = (0..).find(|code| !codes.contains(code)).unwrap();
    for code in codes.iter().copied().chain([absent]) {
        let first = records.iter().zip(0..).find(|(record, _)| record.code == code);
        let hit = first.map(|(record, number)| Hit { record: number, at: record.at, total: record.total });
        let looked = hit.map_or(reading.records, |hit| hit.record + 1);
        assert_eq!(first_with(sheet, code as u32), Ok(Hop { hit, looked }));
    }
}

#[test]
fn tables_are_read_back() {
    let mut chance = Chance(0x5EED);
    for _ in 0..1000 {
        let table = table_by_chance(&mut chance);
        let head = head_by_chance(&mut chance);
        let sheet = write(2017, &head, &table, usize::MAX).unwrap();
        let reading = read(&sheet, 2017).unwrap();
        assert_eq!((&reading.head, &reading.table), (&head, &table));
        assert!(hold_sheet(&sheet));
        hold_hops(&sheet, &reading);
    }
}

#[test]
fn spoilt_sheets_are_refused_or_written_back() {
    let mut chance = Chance(0xBAD);
    let mut accepted = 0;
    for _ in 0..3000 {
        let table = table_by_chance(&mut chance);
        let mut sheet = write(2017, &head_e(), &table, usize::MAX).unwrap();
        for _ in 0..1 + chance.below(2) {
            // The records take more of the chances than the passport.
            let from = if chance.below(4) == 0 { 0 } else { 440 };
            let place = from + chance.below(sheet.len() as u64 - from);
            let byte = [0, 1, 0xFF, chance.next() as u8][chance.below(4) as usize];
            sheet[place as usize] = byte;
        }
        if chance.below(8) == 0 {
            sheet.truncate(440 + chance.below(sheet.len() as u64 - 440) as usize);
        }
        accepted += u64::from(hold_sheet(&summed(sheet)));
    }
    assert!(accepted > 300, "{accepted}");
}

#[test]
fn spoilt_tables_are_refused_or_read_back() {
    let mut chance = Chance(0xF00D);
    let mut accepted = 0;
    for _ in 0..10_000 {
        let mut table = table_by_chance(&mut chance);
        if table.numbers.is_empty() {
            continue;
        }
        let at = chance.below(table.numbers.len() as u64) as usize;
        let number = match chance.below(5) {
            0 => u64::MAX - chance.below(16),
            1 => (1 << chance.below(64)) - chance.below(2),
            2 => 65533 + chance.below(5),
            _ => chance.below(5),
        };
        table.numbers[at] = number;
        // Most of these tables have some feature of 2017.
        let year = YEARS[chance.below(16).min(8) as usize];
        if let Ok(sheet) = write(year, &head_e(), &table, usize::MAX) {
            assert_eq!(read(&sheet, year).unwrap().table, table);
            accepted += 1;
        }
    }
    assert!(accepted > 300, "{accepted}");
}
