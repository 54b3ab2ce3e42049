//! Hops over sheets of several records: as they are, with everything altered
//! that a hop looks at or not, and damaged.

use crate::archive::Hop;
use crate::headers::{codes_in, no_code};
use crate::hop_damage::{counts, damage, totals, IDENTIFIERS};
use crate::indexes::{codes, sheet_of};
use crate::judge::Judge;
use crate::numbers::Numbers;
use crate::phases::not_before;
use crate::places::{places, Bounds};
use crate::sheet_damage;
use crate::sheets::{put_sum_right, setting, Made};
use crate::stored::put;
use crate::tables::rows;
use sxf_sys::fields::{descriptor, header, passport, Field, START};
use sxf_sys::refusals::{LENGTH, NOT_SXF, SHORT};

/// How many sizes there are of sheets that are gone through: from no record to
/// one fewer than this.
const SIZES: u64 = 8;

/// How many cases there are: so many for each of these sizes.
pub const EACH_HOP: u64 = 15 * SIZES;

/// A sheet whose records have these codes, but for the last, and whose frame has
/// this one.
fn sheet_for(numbers: &mut Numbers, year: u32, records: usize, codes: &[u32], frame: u32) -> Made {
    let mut made = sheet_of(numbers, year, records, codes);
    put(&mut made.sheet, passport::FRAME, frame);
    put_sum_right(&mut made.sheet);
    made
}

/// A sheet that is drawn, right and damaged: mostly of few records, now and then
/// of some hundred.
pub fn drawn(judge: &mut Judge, numbers: &mut Numbers) {
    let year = setting(numbers);
    let (codes, records) = (codes(numbers), numbers.mostly(16, 300) as usize);
    let frame = numbers.pick(&codes);
    let made = sheet_for(numbers, year, records, &codes, frame);
    judge.note(format!("a sheet of {records} records for {year}, and a frame of code {frame:#x}"));
    let year = not_before(numbers, year);
    judge.hops_are_readings(&made.sheet, year, &codes);
    judge.accepted = judge.hops(&made.sheet, &codes, numbers);
    let (sheet, notes) = damaged(numbers, &made);
    judge.notes.extend(notes);
    let there = codes_in(&sheet);
    let one = if there.is_empty() { frame } else { numbers.pick(&there) };
    let asked = [one, numbers.pick(&codes), no_code(&there, numbers)];
    judge.hops_where_accepted(&sheet, year, &asked);
    judge.hops(&sheet, &asked, numbers);
}

/// The sheet damaged: mostly in what a hop looks at, else anywhere.
fn damaged(numbers: &mut Numbers, made: &Made) -> (Vec<u8>, Vec<String>) {
    let places = places(&made.table);
    if numbers.chance(1, 4) {
        return sheet_damage::damage(numbers, made, &places);
    }
    let mut sheet = made.sheet.clone();
    let notes = damage(numbers, &mut sheet, &places.records);
    (sheet, notes)
}

/// Sheets of one size, whose frame has a wanted code: everything altered, one by
/// one, that a hop to the code and to the frame looks at, and everything that it
/// does not. What both must answer is known from how the sheet was made.
pub fn each(judge: &mut Judge, case: u64, numbers: &mut Numbers) {
    let (year, records) = (setting(numbers), (case % SIZES) as usize);
    let drawn = codes(numbers);
    judge.note(format!("sheets of {records} records for {year}"));
    for &wanted in &drawn {
        let Made { table, sheet, .. } = sheet_for(numbers, year, records, &drawn, wanted);
        let codes = rows(&table).map(|row| row.record.code as u32).collect();
        let mut each = Each { judge, numbers, sheet, records: places(&table).records, codes, wanted };
        each.run();
    }
    judge.accepted = true;
}

/// What is altered in a sheet, one after another. The frame has the wanted code,
/// so that both calls answer alike.
struct Each<'a> {
    judge: &'a mut Judge,
    numbers: &'a mut Numbers,
    sheet: Vec<u8>,
    records: Vec<Bounds>,
    /// The codes of the records.
    codes: Vec<u32>,
    wanted: u32,
}

pub fn refused(number: u64, place: usize) -> Hop {
    Hop { number, place: place as u64, ..Hop::default() }
}

pub fn no_hit(looked: usize) -> Hop {
    Hop { looked: looked as u64, ..Hop::default() }
}

impl Each<'_> {
    fn run(&mut self) {
        let sheet = self.sheet.clone();
        self.is(&sheet, self.answer(), || "as it is".into());
        self.other_codes();
        self.identifiers_of_head();
        self.counts();
        for record in 0..self.records.len() {
            self.identifiers(record);
            self.totals(record);
        }
        self.cuts();
        self.not_looked_at();
        self.after();
    }

    /// The number of the first record with a code.
    fn first(&self, code: u32) -> Option<usize> {
        self.codes.iter().position(|&own| own == code)
    }

    fn hit(&self, record: usize, total: usize) -> Hop {
        let (record, at, total) = (record as u64, self.records[record].at as u64, total as u64);
        Hop { found: 1, record, at, total, looked: record + 1, ..Hop::default() }
    }

    fn answer_for(&self, code: u32) -> Hop {
        match self.first(code) {
            Some(first) => self.hit(first, self.records[first].end - self.records[first].at),
            None => no_hit(self.records.len()),
        }
    }

    /// What the sheet answers as it is.
    fn answer(&self) -> Hop {
        self.answer_for(self.wanted)
    }

    /// Whether the header of a record is looked at.
    fn looks_at(&self, record: usize) -> bool {
        self.first(self.wanted).is_none_or(|first| record <= first)
    }

    /// Both calls must give this answer.
    fn is(&mut self, sheet: &[u8], due: Hop, altered: impl FnOnce() -> String) {
        let before = self.judge.disagreements.len();
        let answers = (self.judge.first_with(sheet, self.wanted), self.judge.frame_of(sheet));
        self.judge.same(|| "hops by code and to the frame, and what is known".into(), answers, (due, due));
        self.judge.context(before, altered);
    }

    /// The same for the sheet with another number in a field of four bytes.
    fn is_with(&mut self, field: Field, number: u32, due: Hop) {
        let mut sheet = self.sheet.clone();
        put(&mut sheet, field, number);
        self.is(&sheet, due, || format!("{number:#x} at {}", field.place));
    }

    /// Each bit of the wanted code turned, in the question and in the passport.
    fn other_codes(&mut self) {
        for bit in 0..32 {
            let code = self.wanted ^ 1 << bit;
            let mut sheet = self.sheet.clone();
            put(&mut sheet, passport::FRAME, code);
            let answers = (self.judge.first_with(&sheet, code), self.judge.frame_of(&sheet));
            let due = self.answer_for(code);
            self.judge.same(|| format!("hops to code {code:#x}, and what is known"), answers, (due, due));
        }
    }

    fn identifiers_of_head(&mut self) {
        for (field, own) in [(passport::IDENTIFIER, passport::IDENTIFIER_IS), (descriptor::IDENTIFIER, descriptor::IDENTIFIER_IS)] {
            for bit in 0..32 {
                self.is_with(field, own ^ 1 << bit, refused(NOT_SXF, field.place));
            }
        }
    }

    /// A hop ends after the counted records; where more are counted than there
    /// are, it comes to the sheet's end.
    fn counts(&mut self) {
        let there = self.records.len();
        for count in (0..there as u32).chain(counts(there as u32)) {
            let counted = count as usize;
            let due = match self.first(self.wanted) {
                Some(first) if first < counted => self.answer(),
                _ if counted <= there => no_hit(counted),
                _ => refused(SHORT, self.sheet.len()),
            };
            self.is_with(descriptor::COUNT, count, due);
        }
    }

    fn identifiers(&mut self, record: usize) {
        let field = header::IDENTIFIER.at(self.records[record].at);
        let turned = (0..32).map(|bit| header::IDENTIFIER_IS ^ 1 << bit);
        let due = if self.looks_at(record) { refused(NOT_SXF, field.place) } else { self.answer() };
        for identifier in turned.chain(IDENTIFIERS) {
            self.is_with(field, identifier, due);
        }
    }

    /// Total lengths that lead to a record after the next are left out.
    fn totals(&mut self, record: usize) {
        let Bounds { at, end, .. } = self.records[record];
        for total in totals((end - at) as u32, at, self.sheet.len()) {
            let next = at + total as usize;
            if next <= end || !self.records.iter().any(|record| record.at == next) {
                let due = if self.looks_at(record) { self.answer_with_next(record, next) } else { self.answer() };
                self.is_with(header::TOTAL.at(at), total, due);
            }
        }
    }

    /// What is answered where the total length of a record, which is looked at,
    /// leads to a place that is the start of no other than the next.
    fn answer_with_next(&self, record: usize, next: usize) -> Hop {
        let Bounds { at, end, .. } = self.records[record];
        let (total_at, length) = (header::TOTAL.at(at).place, self.sheet.len());
        let (is_hit, is_last) = (self.first(self.wanted) == Some(record), record + 1 == self.records.len());
        if next < at + header::SIZE {
            refused(LENGTH, total_at)
        } else if next > length {
            refused(SHORT, total_at)
        } else if is_hit {
            self.hit(record, next - at)
        } else if next == end || is_last {
            self.answer()
        } else if next + header::SIZE > length {
            refused(SHORT, next)
        } else {
            refused(NOT_SXF, next)
        }
    }

    /// Every length: what is refused is the first record that is looked at and
    /// not whole. The bytes that are cut off still lie behind what is lent, so that
    /// a hop that reads past its end would find the record.
    fn cuts(&mut self) {
        let sheet = self.sheet.clone();
        for length in 0..sheet.len() {
            let mut looked_at = self.records.iter().enumerate().filter(|&(record, _)| self.looks_at(record));
            let due = match looked_at.find(|(_, record)| length < record.end) {
                _ if length < START => refused(SHORT, 0),
                Some((_, record)) if length < record.at + header::SIZE => refused(SHORT, record.at),
                Some((_, record)) => refused(SHORT, header::TOTAL.at(record.at).place),
                None => self.answer(),
            };
            self.is(&sheet[..length], due, || format!("cut to {length} bytes"));
        }
    }

    /// Every byte that is not looked at, alone.
    fn not_looked_at(&mut self) {
        let mut looked_at = vec![passport::IDENTIFIER, passport::FRAME, descriptor::IDENTIFIER, descriptor::COUNT];
        for (number, record) in self.records.iter().enumerate() {
            if self.looks_at(number) {
                looked_at.extend([header::IDENTIFIER, header::TOTAL, header::CODE].map(|field| field.at(record.at)));
            }
        }
        let answer = self.answer();
        let mut sheet = self.sheet.clone();
        for at in (0..sheet.len()).filter(|at| !looked_at.iter().any(|field| field.range().contains(at))) {
            sheet[at] ^= 1 << self.numbers.below(8);
            self.is(&sheet, answer, || format!("byte {at} altered"));
            sheet[at] = self.sheet[at];
        }
    }

    /// Bytes after the last record: one, as many as a header has, and the records
    /// once more.
    fn after(&mut self) {
        let again = self.sheet[START..].to_vec();
        for more in [vec![0], vec![0xFF; header::SIZE], again] {
            let longer = [&self.sheet[..], &more].concat();
            self.is(&longer, self.answer(), || format!("{} bytes more", more.len()));
        }
    }
}
