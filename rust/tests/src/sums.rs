//! Sheets whose sum is about 32 bits or passes them: "The sum may now pass 32
//! bits, and only its low 32 are kept" (document 02, request 7).
//!
//! Such a sheet has at least 16,843,009 bytes, which come to 2^32 - 1 if each is
//! 255. It is made once, and altered where it is.

use crate::heads::head;
use crate::judge::{Care, Judge};
use crate::limits::fill_up;
use crate::numbers::Numbers;
use crate::phases::not_before;
use crate::sheets::{whole_sum, SUMS};
use crate::stored::put;
use second::{Refusal, Table};
use std::ops::Range;
use sxf_sys::fields::{header, passport, LIMIT, START};
use sxf_sys::reference::{ELEMENT_SIZE, FLOATING};
use sxf_sys::refusals::{OK, SUM};
use sxf_sys::{row, years};

/// Bytes of a point of this reference, and how many numbers it has.
const LONG_POINTS: u64 = ELEMENT_SIZE | FLOATING;
const POINT: usize = 16;
const ELEMENTS: usize = 2;

/// Where the first record has its points.
const METRIC: usize = START + header::SIZE;

/// About how many bytes the second record has.
const SECOND_RECORD: usize = 1000;

/// A sheet of this length is long enough for a whole sum a little over 2^32.
const LENGTH: usize = METRIC + (SUMS as usize / 255).next_multiple_of(POINT) + POINT + SECOND_RECORD;

/// The whole sums of sheets of that length: just below 2^32, 2^32, just past it.
const ABOUT_32_BITS: [u64; 3] = [SUMS - 1, SUMS, SUMS + 1];

/// How many cases there are: those; old letters that pass 32 bits; and a sheet of
/// the limit.
pub const CASES: u64 = ABOUT_32_BITS.len() as u64 + 2;

/// Runs one of them.
pub fn run(judge: &mut Judge, case: u64, numbers: &mut Numbers) {
    match ABOUT_32_BITS.get(case as usize) {
        Some(&whole) => about_32_bits(judge, whole, numbers),
        None if case == CASES - 1 => at_limit(judge, numbers),
        None => old_letters(judge, numbers),
    }
}

/// A sheet whose first record is nearly all of it, and has points that are zero
/// so far. The second is behind the places that three bytes hold.
struct Filled {
    year: u32,
    sheet: Vec<u8>,
    points: Range<usize>,
}

/// Makes one of exactly this length. Texts are short, so that each leaves room
/// for old letters.
fn filled(numbers: &mut Numbers, length: usize) -> Filled {
    let year = not_before(numbers, years::MARK_65535);
    let mut head = head(numbers, year);
    for text in [&mut head.date, &mut head.designation, &mut head.title, &mut head.designation2] {
        text.truncate(8);
    }
    let count = (length - METRIC - SECOND_RECORD) / POINT;
    let first = row::Record {
        code: numbers.of_bits(32),
        reference: LONG_POINTS,
        word: count as u64,
        parts: 1,
        mark: 1,
        ..row::Record::default()
    };
    let mut table = Table { elements: vec![0; ELEMENTS * count], ..Table::default() };
    table.numbers.extend(first.numbers());
    table.numbers.extend(row::Part { points: count as u64, text_length: 0 }.numbers());
    let points = METRIC..METRIC + POINT * count;
    fill_up(&mut table, numbers, length - points.end);
    match second::write(year, &head, &table, length) {
        Ok(sheet) if sheet.len() == length => Filled { year, sheet, points },
        other => panic!("no sheet of {length} bytes: {:?}", other.map(|sheet| sheet.len())),
    }
}

impl Filled {
    /// Sets bytes of the points to 255, and one to what is then missing, so that
    /// the sheet has this whole sum. Its low 32 bits are stored.
    fn set_whole_sum(&mut self, whole: u64) {
        self.sheet[self.points.clone()].fill(0);
        let missing = whole - whole_sum(&self.sheet);
        let (full, rest) = (missing as usize / 255, (missing % 255) as u8);
        let points = &mut self.sheet[self.points.clone()];
        points[..full].fill(0xFF);
        points[full] = rest;
        self.store(whole as u32);
    }

    fn store(&mut self, sum: u32) {
        put(&mut self.sheet, passport::SUM, sum);
    }

    /// The sheet, of this whole sum, is accepted, and the low 32 bits are what the
    /// archive answers as its sum.
    fn is_accepted(&self, judge: &mut Judge, whole: u64) {
        let before = judge.disagreements.len();
        let answer = judge.check(&self.sheet, self.year);
        judge.same(|| "sum by hand".into(), (answer.number, answer.sum), (OK, whole % SUMS));
        judge.context(before, || format!("whole sum {whole:#x}"));
    }

    /// The same, and all else that a sheet is asked; what it is read to is written
    /// with the same sum.
    fn is_right(&self, judge: &mut Judge, whole: u64, numbers: &mut Numbers) {
        self.is_accepted(judge, whole);
        let before = judge.disagreements.len();
        let care = if self.sheet.len() == LENGTH { Care::Once } else { Care::Large };
        judge.reads_in_place(&self.sheet, &[(self.year, care)], numbers);
        judge.context(before, || format!("whole sum {whole:#x}"));
    }

    /// The sheet is refused for its sum.
    fn is_wrong(&self, judge: &mut Judge, what: &str) {
        let before = judge.disagreements.len();
        let answer = judge.check(&self.sheet, self.year);
        judge.same(|| "sum by hand".into(), (answer.number, answer.place), (SUM, passport::SUM.place as u64));
        let due = Err(Refusal { number: SUM, place: passport::SUM.place as u64, year: 0 });
        judge.unfold(&self.sheet, self.year, &due, [0; 3]);
        judge.context(before, || what.into());
    }

    /// Other sums than the low 32 bits of this whole sum: beside them, held down
    /// to the most that 32 bits hold, the carry alone, and with the carry added.
    /// Then the low 32 bits again.
    fn other_sums(&mut self, judge: &mut Judge, whole: u64) {
        let (kept, carry) = (whole as u32, (whole / SUMS) as u32);
        for other in [kept.wrapping_add(1), kept.wrapping_sub(1), u32::MAX, carry, kept.wrapping_add(carry)] {
            if other != kept {
                self.store(other);
                self.is_wrong(judge, &format!("sum {other:#x} stored in place of {kept:#x}"));
            }
        }
        self.store(kept);
    }

    /// The whole sum, not cut, in five bytes, of which the last falls on the first
    /// of the date. That alters the sum; with the altered one the sheet is right,
    /// and has another date.
    fn not_cut(&mut self, judge: &mut Judge, whole: u64) {
        let date = passport::DATE.place;
        let own = self.sheet[date];
        self.sheet[passport::SUM.place..=date].copy_from_slice(&whole.to_le_bytes()[..5]);
        let altered = whole_sum(&self.sheet);
        if altered != whole {
            self.is_wrong(judge, &format!("whole sum {whole:#x} stored in five bytes"));
        }
        self.store(altered as u32);
        self.is_accepted(judge, altered);
        self.sheet[date] = own;
        self.store(whole as u32);
    }
}

/// A sheet of this whole sum, with the sum stored right, wrong and not cut.
fn about_32_bits(judge: &mut Judge, whole: u64, numbers: &mut Numbers) {
    judge.note(format!("a whole sum of {whole:#x}"));
    let mut filled = filled(numbers, LENGTH);
    filled.set_whole_sum(whole);
    is_summed(judge, filled, whole, numbers);
}

/// Right with the low 32 bits of its whole sum, and with nothing else.
fn is_summed(judge: &mut Judge, mut filled: Filled, whole: u64, numbers: &mut Numbers) {
    filled.other_sums(judge, whole);
    filled.not_cut(judge, whole);
    filled.is_right(judge, whole, numbers);
}

/// A sheet whose sum passes 32 bits only with the old letters in its title: they
/// are summed as any bytes, and without them the sum is below 2^32 again.
fn old_letters(judge: &mut Judge, numbers: &mut Numbers) {
    judge.note("old letters that pass 32 bits".into());
    let mut filled = filled(numbers, LENGTH);
    let letters = [numbers.between(1, 255) as u8, 0, numbers.between(1, 255) as u8];
    let of_letters: u64 = letters.iter().map(|&letter| u64::from(letter)).sum();
    let clean = SUMS - numbers.between(1, of_letters);
    filled.set_whole_sum(clean);
    let title = passport::TITLE.after();
    filled.sheet[title - letters.len()..title].copy_from_slice(&letters);
    let whole = clean + of_letters;
    // The sum of the cleared sheet is not that of this one.
    filled.store(clean as u32);
    filled.is_wrong(judge, "sum without the old letters");
    filled.store(whole as u32);
    filled.is_right(judge, whole, numbers);
}

/// A sheet of the limit, whose points are all 255: they pass 32 bits three times.
fn at_limit(judge: &mut Judge, numbers: &mut Numbers) {
    judge.note("points of 255 up to the limit".into());
    let mut filled = filled(numbers, LIMIT);
    let points = filled.points.clone();
    filled.sheet[points].fill(0xFF);
    let whole = whole_sum(&filled.sheet);
    judge.same(|| "how often 32 bits are passed".into(), whole / SUMS, 3);
    is_summed(judge, filled, whole, numbers);
}
