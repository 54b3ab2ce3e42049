//! A code index: built from a sheet, checked, read, and selected from.

use super::{hex, rooms, written, Care, Judge, TOLD};
use crate::archive;
use crate::blocks::{faults, kind_of, last_place, number_at, stands, COUNT};
use crate::numbers::Numbers;
use crate::tables::rows;
use crate::tally::{Call, Reason, Way, Where, BY_INDEX, FROM_SHEET};
use second::{BlockKind, Reading, Refusal};
use std::mem::take;
use sxf_sys::index::{index_length, BLOCK_SIZE, ENTRY_WIDTH, PICK_LOCALISATION, PICK_PLACE, PICK_RECORD, PICK_WIDTH};
use sxf_sys::reference::LOCALISATION;
use sxf_sys::refusals::{BAD_BLOCK, OK};

/// How many picks of one selection are held against their records.
const RECORDS_ASKED: usize = 40;

impl Judge {
    /// Builds the index of a sheet with all rooms; asks of what is built all that
    /// an index can be asked, and of the same in old blocks everything once; and
    /// selects each of these codes by both and from the sheet. Tells whether it is
    /// built.
    pub fn indexed(&mut self, sheet: &[u8], year: u32, codes: &[u32], numbers: &mut Numbers) -> bool {
        let length = match second::index_build(sheet, year, usize::MAX) {
            Ok(index) => index.len(),
            Err(_) => numbers.index(3) * BLOCK_SIZE,
        };
        let mut built = false;
        for room in rooms(length, numbers) {
            built = self.index_build(sheet, year, room);
        }
        let index = take(&mut self.out);
        let both = if built { both_kinds(sheet, year, index.slice()) } else { Vec::new() };
        if let [new, old @ ..] = &both[..] {
            self.index(new, codes, numbers);
            old.iter().for_each(|old| self.index_once(old, codes[0], numbers));
        }
        self.same_entries(&both);
        for &code in codes {
            let from_sheet = self.selects(sheet, year, code, numbers);
            self.same_picks(&both, code, &from_sheet);
            self.picks_are_records(sheet, year, code, &from_sheet.unwrap_or_default());
        }
        self.out = index;
        built
    }

    /// Builds the index of an accepted sheet of so many records, and asks of it,
    /// and of the same in old blocks, everything once; and selects a code by both
    /// and from the sheet. For sheets that are too large for all rooms.
    pub fn indexed_once(&mut self, sheet: &[u8], year: u32, records: usize, code: u32) {
        let built = self.index_build(sheet, year, index_length(records));
        self.same(|| format!("whether the index of {records} records is built"), built, true);
        if !built {
            return;
        }
        let index = take(&mut self.out);
        let both = both_kinds(sheet, year, index.slice());
        for index in &both {
            self.index_check(index);
        }
        self.same_entries(&both);
        let from_sheet = self.select(sheet, year, code, PICK_WIDTH * records);
        self.same_picks(&both, code, &from_sheet);
        self.picks_are_records(sheet, year, code, &from_sheet.unwrap_or_default());
        self.out = index;
    }

    /// Indexes of one sheet have the same entries, whichever kind they are of.
    fn same_entries(&mut self, indexes: &[Vec<u8>]) {
        let mut first = None;
        for index in indexes {
            let count = archive::index_check(index).entries as usize;
            let entries = self.index_read(index, ENTRY_WIDTH * count);
            match &first {
                None => first = Some(entries),
                Some(first) => self.same(|| "entries of new blocks and of old ones".into(), *first == entries, true),
            }
        }
    }

    /// A code is selected by indexes of a sheet, whichever kind they are of, as it
    /// is from the sheet; where they are not built, the sheet is refused as well.
    fn same_picks(&mut self, indexes: &[Vec<u8>], code: u32, from_sheet: &Option<Vec<u64>>) {
        let asked = |kind| format!("code {code:#x} by an index, {kind:?}, and from the sheet");
        let length = from_sheet.as_ref().map_or(0, Vec::len);
        for index in indexes {
            let by_index = self.index_select(index, code, length);
            self.same(|| asked(kind_of(index)), by_index == *from_sheet, true);
        }
        self.same(|| asked(None), indexes.is_empty(), from_sheet.is_none());
    }

    /// Asks of an index everything, with all rooms, and tells whether it is
    /// accepted. It lies between guards, and is found whole after.
    pub fn index(&mut self, index: &[u8], codes: &[u32], numbers: &mut Numbers) -> bool {
        if self.tells && index.len() <= TOLD {
            self.note(format!("index {}", hex(index)));
        }
        let mut held = take(&mut self.index);
        held.hold(index);
        let accepted = self.index_check(held.slice());
        let length = length_due(second::index_read(index, usize::MAX), numbers);
        for room in rooms(length, numbers) {
            self.index_read(held.slice(), room);
        }
        for &code in codes {
            let length = length_due(second::index_select(index, code, usize::MAX), numbers);
            for room in rooms(length, numbers) {
                self.index_select(held.slice(), code, room);
            }
        }
        let is_whole = held.holds(index);
        self.whole(|| "after all that an index was asked".into(), "index's bytes", is_whole);
        self.index = held;
        accepted
    }

    /// Asks of an index everything once, where it is, with rooms that may be
    /// too small.
    pub fn index_once(&mut self, index: &[u8], code: u32, numbers: &mut Numbers) {
        self.index_check(index);
        let length = length_due(second::index_read(index, usize::MAX), numbers);
        let room = a_room(length, numbers);
        self.index_read(index, room);
        let length = length_due(second::index_select(index, code, usize::MAX), numbers);
        let room = a_room(length, numbers);
        self.index_select(index, code, room);
    }

    /// Builds the index of a sheet and selects one of its codes, with more care
    /// or less.
    pub(super) fn indexes(&mut self, sheet: &[u8], year: u32, due: &Result<Reading, Refusal>, care: Care, numbers: &mut Numbers) {
        let (records, code) = match due {
            Ok(reading) => (reading.records as usize, a_code(reading, numbers)),
            Err(_) => (numbers.index(3), numbers.of_bits(32) as u32),
        };
        if care == Care::Whole {
            let any = numbers.of_bits(32) as u32;
            let code = numbers.pick(&[code, code, any]);
            self.indexed(sheet, year, &[code], numbers);
            return;
        }
        if care == Care::Large && due.is_ok() {
            return self.indexed_once(sheet, year, records, code);
        }
        let room = a_room(index_length(records), numbers);
        self.index_build(sheet, year, room);
        let room = a_room(PICK_WIDTH * records, numbers);
        self.select(sheet, year, code, room);
    }

    /// Builds an index into a slice of this length, and tells whether it is
    /// built.
    pub fn index_build(&mut self, sheet: &[u8], year: u32, room: usize) -> bool {
        let answer = archive::index_build(sheet, year, self.out.lend(room));
        self.meet(Call::IndexBuild, answer.number);
        let due = second::index_build(sheet, year, room);
        let asked = || format!("index at {year} into {room} bytes");
        self.same(asked, answer, written(&due));
        let index = due.unwrap_or_default();
        let found = self.out.holds(&index);
        self.whole(asked, "bytes", found);
        self.meet_places(&index);
        answer.number == OK
    }

    /// Checks an index, and tells whether it is accepted.
    pub fn index_check(&mut self, index: &[u8]) -> bool {
        let answer = archive::index_check(index);
        self.meet(Call::IndexCheck, answer.number);
        let none = archive::Index::default();
        let expected = match second::index_check(index) {
            Ok(second::Index { entries, blocks }) => {
                let (kind, count) = last_count(index);
                self.met.last_counts[kind as usize][count] = 1;
                archive::Index { entries, blocks, ..none }
            }
            Err(refusal) => {
                self.meet_block(index, refusal);
                archive::Index { number: refusal.number, place: refusal.place, year: refusal.year, ..none }
            }
        };
        self.same(|| format!("check of an index of {} bytes", index.len()), answer, expected);
        answer.number == OK
    }

    /// Reads the entries of an index into a slice of this length, and gives what
    /// was written.
    pub fn index_read(&mut self, index: &[u8], room: usize) -> Option<Vec<u64>> {
        let answer = archive::index_read(index, self.entries.lend(room));
        self.meet(Call::IndexRead, answer.number);
        let due = second::index_read(index, room);
        let asked = || format!("entries of an index of {} bytes into {room} numbers", index.len());
        self.same(asked, answer, written(&due));
        let found = self.entries.holds(due.as_deref().unwrap_or_default());
        self.whole(asked, "numbers", found);
        let written = self.entries.slice().get(..answer.length as usize).filter(|_| answer.number == OK);
        written.map(<[u64]>::to_vec)
    }

    /// Selects a code by an index into a slice of this length, and gives what
    /// was written.
    pub fn index_select(&mut self, index: &[u8], code: u32, room: usize) -> Option<Vec<u64>> {
        let answer = archive::index_select(index, code, self.picks.lend(room));
        self.meet(Call::IndexSelect, answer.number);
        let asked = || format!("code {code:#x} by an index of {} bytes into {room} numbers", index.len());
        self.picked(BY_INDEX, asked, answer, second::index_select(index, code, room))
    }

    /// Selects a code from a sheet with all rooms, and gives what was written
    /// into the last, its own.
    fn selects(&mut self, sheet: &[u8], year: u32, code: u32, numbers: &mut Numbers) -> Option<Vec<u64>> {
        let length = length_due(second::select(sheet, year, code, usize::MAX), numbers);
        let mut picks = None;
        for room in rooms(length, numbers) {
            picks = self.select(sheet, year, code, room);
        }
        picks
    }

    /// Selects a code from a sheet into a slice of this length, and gives what
    /// was written.
    pub fn select(&mut self, sheet: &[u8], year: u32, code: u32, room: usize) -> Option<Vec<u64>> {
        let answer = archive::select(sheet, year, code, self.picks.lend(room));
        self.meet(Call::Select, answer.number);
        let asked = || format!("code {code:#x} at {year} into {room} numbers");
        self.picked(FROM_SHEET, asked, answer, second::select(sheet, year, code, room))
    }

    /// Compares what a selection answered and wrote.
    fn picked(
        &mut self,
        from: usize,
        asked: impl Fn() -> String,
        answer: archive::Written,
        due: Result<Vec<u64>, Refusal>,
    ) -> Option<Vec<u64>> {
        self.same(&asked, answer, written(&due));
        let found = self.picks.holds(due.as_deref().unwrap_or_default());
        self.whole(&asked, "numbers", found);
        if let Ok(picks) = due {
            let picks = picks.as_chunks::<PICK_WIDTH>().0;
            self.met.hits[from][picks.len().min(2)] = 1;
            // An index may say anything of a record, and a sheet may not.
            for pick in picks.iter().filter(|_| from == FROM_SHEET) {
                self.met.localisations[pick[PICK_LOCALISATION] as usize] = 1;
            }
        }
        let written = self.picks.slice().get(..answer.length as usize).filter(|_| answer.number == OK);
        written.map(<[u64]>::to_vec)
    }

    /// Each pick, or some of many, says what its record says.
    fn picks_are_records(&mut self, sheet: &[u8], year: u32, code: u32, picks: &[u64]) {
        let picks = picks.as_chunks::<PICK_WIDTH>().0;
        for pick in picks.iter().step_by(picks.len().div_ceil(RECORDS_ASKED).max(1)) {
            let record = archive::record_at(sheet, year, pick[PICK_RECORD]);
            let said = [record.number, u64::from(code), pick[PICK_PLACE], pick[PICK_LOCALISATION]];
            let due = [OK, record.code, record.at, record.reference & LOCALISATION];
            self.same(|| format!("record {} picked at {year}", pick[PICK_RECORD]), said, due);
        }
    }

    /// How many bytes the last place of an index that is built takes.
    fn meet_places(&mut self, index: &[u8]) {
        if let Some(place) = last_place(BlockKind::New, index) {
            let bytes = match place {
                ..0x1_0000 => 2,
                0x1_0000..PAST_OLD_BLOCKS => 3,
                PAST_OLD_BLOCKS.. => 4,
            };
            self.met.places[bytes - 2] = 1;
        }
    }

    /// What is wrong with a block, where it is one thing alone.
    fn meet_block(&mut self, index: &[u8], Refusal { number, place, year }: Refusal) {
        let block = place as usize / BLOCK_SIZE;
        let faults = faults(index, block);
        self.same(|| format!("faults of block {block}"), (number, faults.is_empty()), (BAD_BLOCK, false));
        if let [fault] = faults[..] {
            let at = Where::Block(kind_of(index), stands(index, block), fault);
            self.meet_reason(Reason { way: Way::Index, number, at, year });
        }
    }
}

/// The code of one of a sheet's records, or any where it has none.
fn a_code(reading: &Reading, numbers: &mut Numbers) -> u32 {
    let record = numbers.below(reading.records.max(1)) as usize;
    rows(&reading.table).nth(record).map_or(numbers.any() as u32, |row| row.record.code as u32)
}

/// One of the lengths of outputs.
fn a_room(length: usize, numbers: &mut Numbers) -> usize {
    let rooms = rooms(length, numbers);
    numbers.pick(&rooms)
}

/// How much is written, or any number if it is refused.
fn length_due(due: Result<Vec<u64>, Refusal>, numbers: &mut Numbers) -> usize {
    due.map_or_else(|_| numbers.index(40), |written| written.len())
}

/// The first place that three bytes do not hold.
const PAST_OLD_BLOCKS: usize = 1 << 24;

/// The index of a sheet that is built in new blocks, and, where these can hold
/// all places, the same in old ones.
fn both_kinds(sheet: &[u8], year: u32, built: &[u8]) -> Vec<Vec<u8>> {
    let mut both = vec![built.to_vec()];
    if last_place(BlockKind::New, built).is_none_or(|place| place < PAST_OLD_BLOCKS) {
        both.extend(second::index_build_of_kind(BlockKind::Old, sheet, year, usize::MAX));
    }
    both
}

/// The kind of an index that is accepted, and the entries of its last block; no
/// entries where there is none, and such an index counts as a new one.
fn last_count(index: &[u8]) -> (BlockKind, usize) {
    let count = index.chunks(BLOCK_SIZE).last().map_or(0, |block| number_at(block, COUNT));
    (kind_of(index).unwrap_or(BlockKind::New), count)
}
