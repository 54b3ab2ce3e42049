//! Everything that is written from a head and a table.

use super::{refusal_of, table_sizes, Judge, TOLD};
use crate::archive;
use crate::numbers::Numbers;
use crate::reasons;
use crate::tally::Call;
use second::{Head, Refusal, Table};
use std::hint::black_box;
use sxf_sys::refusals;

impl Judge {
    /// Writes a table at several years; the first says whether the case is
    /// accepted, and has all rooms. What was lent is found whole after.
    pub fn writes(&mut self, head: &Head, table: &Table, years: &[u32], numbers: &mut Numbers) {
        if self.tells && table.numbers.len() + table.elements.len() + table.bytes.len() <= TOLD {
            self.note(format!("{head:?}\n    {table:?}"));
        }
        let (lent_head, lent_table) = (head.clone(), table.clone());
        for (number, &year) in years.iter().enumerate() {
            let due = second::write(year, &lent_head, &lent_table, usize::MAX);
            let length = due.as_ref().map_or(numbers.index(600), Vec::len);
            let more = length + numbers.index(9);
            self.write(year, &lent_head, &lent_table, more, &due);
            if number == 0 {
                self.accepted = due.is_ok();
                let some = numbers.index(length + 1);
                for room in [length, length.saturating_sub(1), 0, some] {
                    self.write(year, &lent_head, &lent_table, room, &due);
                }
            }
            if let Ok(sheet) = due {
                self.meet_features(&lent_head, &lent_table);
                self.reads_back(year, &lent_head, &lent_table, &sheet);
            }
        }
        let all = || "after all writing".to_string();
        self.same(all, black_box(&lent_head), head);
        let is_whole = black_box(&lent_table) == table;
        self.same(all, is_whole, true);
    }

    /// Writes into a slice of this length. `due` is the answer with all room.
    pub fn write(&mut self, year: u32, head: &Head, table: &Table, room: usize, due: &Result<Vec<u8>, Refusal>) {
        let answer = archive::write(year, head, table, self.out.lend(room));
        self.meet(Call::Write, answer.number);
        let mut refusal = refusal_of(due);
        let mut sheet: &[u8] = &[];
        match due {
            Ok(whole) if whole.len() <= room => sheet = whole,
            Ok(_) => refusal = refusal_of(&second::write(year, head, table, room)),
            Err(_) => {}
        }
        let expected =
            archive::Written { number: refusal.number, place: refusal.place, year: refusal.year, length: sheet.len() as u64 };
        if refusal.number != refusals::OK {
            self.meet_reason(reasons::of_table(year, head, table, refusal));
        }
        let asked = || format!("write at {year} into {room}");
        self.same(asked, answer, expected);
        let found = self.out.holds(sheet);
        self.whole(asked, "written bytes", found);
    }

    /// What was written is read as the same table and head, and has no old
    /// letters.
    fn reads_back(&mut self, year: u32, head: &Head, table: &Table, sheet: &[u8]) {
        let due = second::read(sheet, year);
        let sizes = table_sizes(table);
        self.unfold(sheet, year, &due, sizes);
        let asked = || format!("reading back at {year}");
        match &due {
            Ok(reading) => {
                self.same(asked, (&reading.head, reading.tails.all_clean()), (head, true));
                // A table may be large; it is not told in full.
                self.same(asked, reading.table == *table, true);
                self.head_of(sheet, year, &due);
            }
            Err(refusal) => {
                let refusal = *refusal;
                self.same(asked, Some(refusal), None);
            }
        }
    }
}
