//! Where in a sheet or a table a refusal stands.

use crate::tally::{Reason, Way, Where};
use second::{Head, Refusal, Table};
use sxf_sys::fields::{header, Field, START};
use sxf_sys::refusals::{ASK, LEFT_OVER, LENGTH, ROOM, TOO_LONG};
use sxf_sys::row::{self, ITEMS, ITEM_WIDTH, PARTS, PART_WIDTH, POINTS, ROW_WIDTH};
use sxf_sys::MARK;

/// The reason for a sheet's refusal.
pub fn of_sheet(sheet: &[u8], refusal: Refusal) -> Reason {
    let place = refusal.place as usize;
    let at = match refusal.number {
        ASK => Where::Asked,
        _ if place < START => Where::Head(place),
        LEFT_OVER => Where::After,
        number => in_records(sheet, place, number),
    };
    Reason { way: Way::Read, number: refusal.number, at, year: refusal.year }
}

/// The reason for a refusal to hop over a sheet.
pub fn of_hop(sheet: &[u8], refusal: Refusal) -> Reason {
    Reason { way: Way::Hop, ..of_sheet(sheet, refusal) }
}

fn in_records(sheet: &[u8], place: usize, refusal: u64) -> Where {
    let number = |field: Field| {
        let bytes = sheet.get(field.range()).unwrap_or(&[0; 4]);
        bytes.iter().rev().fold(0, |number, &byte| number << 8 | usize::from(byte))
    };
    let total = |at: usize| number(header::TOTAL.at(at));
    let mut at = START;
    // LENGTH may stand where a record ends; no other refusal of it does.
    let reach = usize::from(refusal == LENGTH);
    // The records before the one refused are right.
    while total(at) >= header::SIZE && place >= at + total(at) + reach {
        at += total(at);
    }
    let metric = at + header::SIZE;
    let metric_end = metric + number(header::METRIC.at(at));
    let marked = number(header::POINTS.at(at)) as u64 == MARK;
    if place < metric {
        Where::Header(place - at)
    } else if place < metric_end {
        Where::Metric { marked }
    } else if place == metric_end {
        Where::MetricEnd
    } else {
        Where::Semantics
    }
}

/// The reason for a refusal to write.
pub fn of_table(year: u32, head: &Head, table: &Table, refusal: Refusal) -> Reason {
    let at = match refusal.number {
        TOO_LONG | ROOM | ASK => Where::Asked,
        _ if second::write(year, head, &Table::default(), usize::MAX).is_err() => Where::Head(refusal.place as usize),
        _ => in_table(&table.numbers, refusal.place as usize),
    };
    Reason { way: Way::Write, number: refusal.number, at, year: refusal.year }
}

fn in_table(numbers: &[u64], index: usize) -> Where {
    let mut row = 0;
    loop {
        if index == numbers.len() {
            return Where::TableEnd;
        }
        let column = index - row;
        if column < ROW_WIDTH {
            return Where::Row(column);
        }
        // A row that is not whole is refused at its first number, so this one
        // and those before it are whole.
        let parts_at = row + ROW_WIDTH;
        let items_at = parts_at + PART_WIDTH * numbers[row + PARTS] as usize;
        let marked = numbers[row + row::MARK] == 1;
        row = items_at + ITEM_WIDTH * numbers[row + ITEMS] as usize;
        if index < items_at {
            let in_parts = index - parts_at;
            return match (in_parts, in_parts % PART_WIDTH) {
                (POINTS, _) => Where::FirstPoints { marked },
                (_, POINTS) => Where::LaterPoints { marked },
                _ => Where::TextLength,
            };
        }
        if index < row {
            return Where::Item((index - items_at) % ITEM_WIDTH);
        }
    }
}
