//! Everything that is asked of a sheet.

use super::meanings::unit_numbers;
use super::{hex, refusal_of, table_sizes, Care, Judge, TOLD};
use crate::archive;
use crate::numbers::Numbers;
use crate::reasons;
use crate::sheets::{passes_32_bits, SUMS};
use crate::tally::{Call, Reason, Way, Where};
use second::{Reading, Refusal, Sizes, Table};
use sxf_sys::fields::passport::CORNERS;
use sxf_sys::refusals;

impl Judge {
    /// Reads a sheet at several years; the first says whether the case is
    /// accepted. The sheet lies between guards, and is found whole after.
    pub fn reads(&mut self, sheet: &[u8], years: &[(u32, Care)], numbers: &mut Numbers) {
        if self.tells && sheet.len() <= TOLD {
            self.note(format!("sheet {}", hex(sheet)));
        }
        let mut held = std::mem::take(&mut self.sheet);
        held.hold(sheet);
        self.reads_in_place(held.slice(), years, numbers);
        let is_whole = held.holds(sheet);
        self.whole(|| "after all reading".into(), "sheet's bytes", is_whole);
        self.sheet = held;
    }

    /// Reads a sheet where it is.
    pub fn reads_in_place(&mut self, sheet: &[u8], years: &[(u32, Care)], numbers: &mut Numbers) {
        for (number, &(year, care)) in years.iter().enumerate() {
            let accepted = self.reads_at(sheet, year, care, numbers);
            if number == 0 {
                self.accepted = accepted;
            }
        }
    }

    /// Reads a sheet at one year, and tells whether it is accepted.
    fn reads_at(&mut self, sheet: &[u8], year: u32, care: Care, numbers: &mut Numbers) -> bool {
        let due = second::read(sheet, year);
        match &due {
            Ok(reading) => {
                self.meet_features(&reading.head, &reading.table);
                self.meet_tails(&reading.tails);
                self.met.sums[usize::from(passes_32_bits(sheet))] = 1;
            }
            Err(refusal) => self.meet_reason(reasons::of_sheet(sheet, *refusal)),
        }
        let answer = self.check(sheet, year);
        self.same(|| format!("check at {year}, held against what is read"), answer, checked(sizes(&due)));
        if care != Care::Check {
            self.unfolds(sheet, year, &due, care, numbers);
            self.indexes(sheet, year, &due, care, numbers);
            self.hops_at(sheet, year, care, numbers);
            if let Ok(reading) = &due {
                self.writes_back(sheet, year, reading);
            }
        }
        if matches!(care, Care::Whole | Care::Once) {
            self.records_at(sheet, year, &due, care, numbers);
            self.head_of(sheet, year, &due);
            if let Ok(reading) = &due {
                self.meanings_of(reading);
            }
        }
        due.is_ok()
    }

    /// Checks a sheet, and gives the archive's answer.
    pub fn check(&mut self, sheet: &[u8], year: u32) -> archive::Checked {
        let answer = archive::check(sheet, year);
        self.meet(Call::Check, answer.number);
        self.same(|| format!("check at {year}"), answer, checked(second::check(sheet, year)));
        answer
    }

    /// Unfolds into slices of several lengths.
    fn unfolds(&mut self, sheet: &[u8], year: u32, due: &Result<Reading, Refusal>, care: Care, numbers: &mut Numbers) {
        let sizes = match due {
            Ok(reading) => table_sizes(&reading.table),
            Err(_) => [0; 3].map(|_: usize| numbers.index(40)),
        };
        let more = sizes.map(|size| size + numbers.index(9));
        self.unfold(sheet, year, due, more);
        if care != Care::Whole {
            return;
        }
        self.unfold(sheet, year, due, sizes);
        self.unfold(sheet, year, due, [0; 3]);
        if due.is_err() {
            return;
        }
        for short in 0..3 {
            if sizes[short] > 0 {
                let mut rooms = if numbers.chance(1, 2) { sizes } else { more };
                rooms[short] = sizes[short] - 1;
                self.unfold(sheet, year, due, rooms);
            }
        }
        let some = more.map(|size| numbers.index(size + 1));
        self.unfold(sheet, year, due, some);
        let mut none = more;
        none[numbers.index(3)] = 0;
        self.unfold(sheet, year, due, none);
    }

    /// Unfolds into slices of these lengths.
    pub fn unfold(&mut self, sheet: &[u8], year: u32, due: &Result<Reading, Refusal>, rooms: [usize; 3]) {
        let answer =
            archive::unfold(sheet, year, self.table.lend(rooms[0]), self.elements.lend(rooms[1]), self.bytes.lend(rooms[2]));
        self.meet(Call::Unfold, answer.number);
        let mut expected = checked(sizes(due));
        let none = Table::default();
        let mut written = &none;
        if let Ok(reading) = due {
            written = &reading.table;
            let sizes = table_sizes(written);
            if let Some(first) = (0..3).find(|&slice| rooms[slice] < sizes[slice]) {
                let place = first as u64 + 1;
                expected = archive::Checked { number: Refusal::ROOM, place, ..archive::Checked::default() };
                written = &none;
                self.meet_reason(Reason { way: Way::Read, number: Refusal::ROOM, at: Where::Lent(place), year: 0 });
            }
        }
        let asked = || format!("unfold at {year} into {rooms:?}");
        self.same(asked, answer, expected);
        let found = self.table.holds(&written.numbers);
        self.whole(asked, "numbers", found);
        let found = self.elements.holds(&written.elements);
        self.whole(asked, "elements", found);
        let found = self.bytes.holds(&written.bytes);
        self.whole(asked, "bytes", found);
    }

    /// Asks for records by number: those there are, and numbers near them,
    /// also in their low 32 bits.
    fn records_at(&mut self, sheet: &[u8], year: u32, due: &Result<Reading, Refusal>, care: Care, numbers: &mut Numbers) {
        let count = due.as_ref().map_or(0, |reading| reading.records);
        let last = count.wrapping_sub(1);
        let any = numbers.below(count.max(1));
        let asked = [any, count, 0, last, 1 << 32, (1 << 32) + any, u64::MAX, numbers.any()];
        let few = if care != Care::Whole || due.is_err() { 2 } else { asked.len() };
        for &number in &asked[..few] {
            self.record_at(sheet, year, number);
        }
    }

    /// Asks for one record.
    pub fn record_at(&mut self, sheet: &[u8], year: u32, number: u64) {
        let answer = archive::record_at(sheet, year, number);
        self.meet(Call::RecordAt, answer.number);
        let expected = match second::record_at(sheet, year, number) {
            Ok(record) => archive::Record {
                at: record.at,
                total: record.total,
                code: record.code,
                in_group: record.in_group,
                group: record.group,
                reference: record.reference,
                generalisation: record.generalisation,
                word: record.word,
                parts: record.parts,
                items: record.items,
                mark: record.mark,
                points: record.points,
                ..archive::Record::default()
            },
            Err(refusal) => {
                archive::Record { number: refusal.number, place: refusal.place, year: refusal.year, ..archive::Record::default() }
            }
        };
        let asked = || format!("record {number} at {year}");
        self.same(asked, answer, expected);
    }

    /// Asks for head, unit and corners.
    pub(super) fn head_of(&mut self, sheet: &[u8], year: u32, due: &Result<Reading, Refusal>) {
        let answer = archive::head_of(sheet, year);
        self.meet(Call::HeadOf, answer.number);
        let refusal = refusal_of(due);
        let mut expected =
            archive::Head { number: refusal.number, place: refusal.place, year: refusal.year, ..archive::Head::default() };
        if let Ok(Reading { head, tails, .. }) = due {
            expected.date = head.date.len() as u64;
            expected.designation = head.designation.len() as u64;
            expected.title = head.title.len() as u64;
            expected.designation2 = head.designation2.len() as u64;
            expected.scale = u64::from(head.scale);
            let clean = tails.clean().map(u64::from);
            [expected.date_clean, expected.designation_clean, expected.title_clean, expected.designation2_clean] = clean;
        }
        self.same(|| format!("head at {year}"), answer, expected);
        self.unit_of(sheet, year);
        self.corners_of(sheet, year);
    }

    fn unit_of(&mut self, sheet: &[u8], year: u32) {
        let answer = archive::unit_of(sheet, year);
        self.meet(Call::UnitOf, answer.number);
        let due = second::unit(sheet, year);
        let refusal = refusal_of(&due);
        let (unit, byte) = due.map_or((0, 0), unit_numbers);
        let expected = archive::Unit { number: refusal.number, place: refusal.place, year: refusal.year, unit, byte };
        self.met.units[unit as usize] = 1;
        self.same(|| format!("unit at {year}"), answer, expected);
    }

    fn corners_of(&mut self, sheet: &[u8], year: u32) {
        let answer = archive::corners_of(sheet, year);
        self.meet(Call::CornersOf, answer.number);
        let due = second::corners(sheet, year);
        let refusal = refusal_of(&due);
        let corners = due.unwrap_or([0; 8]);
        let first = corners.iter().position(|&bits| f64::from_bits(bits).is_nan());
        if refusal.number == refusals::OK {
            self.met.nans[first.map_or(0, |number| number + 1)] = 1;
        }
        let [sw_x, sw_y, nw_x, nw_y, ne_x, ne_y, se_x, se_y] = corners;
        let Refusal { number, place, year: since } = refusal;
        let nan_at = first.map_or(0, |number| (CORNERS.place + 8 * number) as u64);
        let expected = archive::Corners { number, place, year: since, nan_at, sw_x, sw_y, nw_x, nw_y, ne_x, ne_y, se_x, se_y };
        self.same(|| format!("corners at {year}"), answer, expected);
    }

    /// Document 02, request 6: "writing the reading of an accepted sheet gives
    /// its bytes with those tails cleared and the sum to match". They are its own
    /// bytes where all tails are clean.
    fn writes_back(&mut self, sheet: &[u8], year: u32, reading: &Reading) {
        let cleared = second::cleared(sheet);
        self.same(|| "whether clearing its tails leaves the sheet".into(), cleared == sheet, reading.tails.all_clean());
        let out = self.out.lend(sheet.len());
        let answer = archive::write(year, &reading.head, &reading.table, out);
        self.meet(Call::Write, answer.number);
        let expected = archive::Written { length: sheet.len() as u64, ..archive::Written::default() };
        let asked = || format!("writing back at {year}");
        self.same(asked, answer, expected);
        let found = self.out.holds(&cleared);
        self.whole(asked, "bytes", found);
        if cleared != sheet {
            self.reads_cleared(sheet, &cleared, year, reading);
        }
    }

    /// The cleared sheet is read as the sheet is, but that all its tails are
    /// clean, and its sum is without them. With them it may have passed 32 bits.
    fn reads_cleared(&mut self, sheet: &[u8], cleared: &[u8], year: u32, reading: &Reading) {
        let asked = |what: &str| format!("{what} of the cleared sheet at {year}");
        let tails: u64 = reading.tails.by_place().concat().into_iter().map(u64::from).sum();
        let sum = reading.sum.wrapping_sub(tails) % SUMS;
        let due = archive::Checked { sum, ..archive::check(sheet, year) };
        self.same(|| asked("check"), archive::check(cleared, year), due);
        let (answer, (numbers, elements, bytes)) = archive::unfold_new(cleared, year, table_sizes(&reading.table));
        self.same(|| asked("unfold"), answer, due);
        // A table may be large; it is not told in full.
        self.same(|| asked("table"), Table { numbers, elements, bytes } == reading.table, true);
        let due = archive::Head {
            date_clean: 1,
            designation_clean: 1,
            title_clean: 1,
            designation2_clean: 1,
            ..archive::head_of(sheet, year)
        };
        self.same(|| asked("head"), archive::head_of(cleared, year), due);
        self.same(|| asked("unit"), archive::unit_of(cleared, year), archive::unit_of(sheet, year));
        self.same(|| asked("corners"), archive::corners_of(cleared, year), archive::corners_of(sheet, year));
        let last = reading.records.wrapping_sub(1);
        self.same(|| asked("last record"), archive::record_at(cleared, year, last), archive::record_at(sheet, year, last));
    }
}

/// The sizes of what is read.
fn sizes(due: &Result<Reading, Refusal>) -> Result<Sizes, Refusal> {
    let reading = due.as_ref().map_err(|refusal| *refusal)?;
    let [numbers, elements, bytes] = table_sizes(&reading.table).map(|size| size as u64);
    Ok(Sizes { sum: reading.sum, records: reading.records, numbers, elements, bytes })
}

/// The archive's answer that these sizes, or this refusal, call for.
fn checked(due: Result<Sizes, Refusal>) -> archive::Checked {
    match due {
        Ok(Sizes { sum, records, numbers, elements, bytes }) => {
            archive::Checked { sum, records, numbers, elements, bytes, ..archive::Checked::default() }
        }
        Err(refusal) => {
            archive::Checked { number: refusal.number, place: refusal.place, year: refusal.year, ..archive::Checked::default() }
        }
    }
}
