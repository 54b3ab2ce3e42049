//! Hops: to the first record with a code, and to the frame.

use super::{hex, refusal_of, Care, Judge, TOLD};
use crate::archive;
use crate::headers::{codes_in, looked_at, no_code, shortest};
use crate::numbers::Numbers;
use crate::reasons;
use crate::stored::u32_in;
use crate::tables::rows;
use crate::tally::{Call, End, BY_CODE, TO_FRAME};
use second::{Refusal, Table};
use std::mem::take;
use sxf_sys::fields::{descriptor, passport, Field};
use sxf_sys::refusals::OK;

impl Judge {
    /// Hops to each of these codes and to the frame, and tells whether no hop is
    /// refused. The sheet lies between guards, and is found whole after.
    pub fn hops(&mut self, sheet: &[u8], codes: &[u32], numbers: &mut Numbers) -> bool {
        if self.tells && sheet.len() <= TOLD {
            self.note(format!("sheet {}", hex(sheet)));
        }
        let mut held = take(&mut self.sheet);
        held.hold(sheet);
        let frame = self.frame_of(held.slice());
        let with_its_code = self.first_with(held.slice(), u32_in(sheet, passport::FRAME));
        self.same(|| "hops to the frame and to its code".into(), frame, with_its_code);
        self.rests_on_headers(sheet, frame, &[passport::FRAME], archive::frame_of, numbers);
        let mut accepted = frame.number == OK;
        for &code in codes {
            let answer = self.first_with(held.slice(), code);
            self.rests_on_headers(sheet, answer, &[], |sheet| archive::first_with(sheet, code), numbers);
            accepted &= answer.number == OK;
        }
        let is_whole = held.holds(sheet);
        self.whole(|| "after all hops".into(), "sheet's bytes", is_whole);
        self.sheet = held;
        accepted
    }

    /// Hops over a sheet that is read at a year: to the frame and to the code of
    /// one of its records; with more care also to that of the last and to one that
    /// none has, and the answers are held against what is read.
    pub(super) fn hops_at(&mut self, sheet: &[u8], year: u32, care: Care, numbers: &mut Numbers) {
        let codes = codes_in(sheet);
        let absent = no_code(&codes, numbers);
        let one = if codes.is_empty() { absent } else { numbers.pick(&codes) };
        let last = codes.last().copied().unwrap_or(absent);
        let asked = if care == Care::Whole { &[one, last, absent][..] } else { &[one] };
        self.frame_of(sheet);
        for &code in asked {
            self.first_with(sheet, code);
        }
        if care == Care::Whole {
            self.hops_where_accepted(sheet, year, asked);
        }
    }

    /// Hops to a code, and gives the archive's answer.
    pub fn first_with(&mut self, sheet: &[u8], code: u32) -> archive::Hop {
        let answer = archive::first_with(sheet, code);
        self.meet(Call::FirstWith, answer.number);
        let due = second::first_with(sheet, code);
        self.meet_end(BY_CODE, sheet, &due);
        self.same(|| format!("hop to code {code:#x} in {} bytes", sheet.len()), answer, hop(due));
        answer
    }

    /// Hops to the frame, and gives the archive's answer.
    pub fn frame_of(&mut self, sheet: &[u8]) -> archive::Hop {
        let answer = archive::frame_of(sheet);
        self.meet(Call::FrameOf, answer.number);
        let due = second::frame_of(sheet);
        self.meet_end(TO_FRAME, sheet, &due);
        self.same(|| format!("hop to the frame in {} bytes", sheet.len()), answer, hop(due));
        answer
    }

    /// "On an accepted sheet the answer equals the one from the full reading":
    /// the unfolded table tells the number of the first record with the code, and
    /// the record of that number its place and total length. This sheet must be
    /// accepted.
    pub fn hops_are_readings(&mut self, sheet: &[u8], year: u32, codes: &[u32]) {
        let accepted = self.hops_where_accepted(sheet, year, codes);
        self.same(|| format!("whether the sheet that is hopped over is accepted at {year}"), accepted, true);
    }

    /// The same for a sheet that may be refused, and whether it is accepted.
    pub fn hops_where_accepted(&mut self, sheet: &[u8], year: u32, codes: &[u32]) -> bool {
        let archive::Checked { number, records, numbers, elements, bytes, .. } = archive::check(sheet, year);
        if number != OK {
            return false;
        }
        let sizes = [numbers, elements, bytes].map(|size| size as usize);
        let (_, (numbers, elements, bytes)) = archive::unfold_new(sheet, year, sizes);
        let table = Table { numbers, elements, bytes };
        let frame = u32_in(sheet, passport::FRAME);
        let hops = codes.iter().map(|&code| (code, archive::first_with(sheet, code))).chain([(frame, archive::frame_of(sheet))]);
        for (code, answer) in hops {
            let asked = || format!("hop to code {code:#x}, held against what is read at {year}");
            let first = rows(&table).position(|row| row.record.code == u64::from(code));
            let Some(number) = first.map(|first| first as u64) else {
                self.same(asked, answer, archive::Hop { looked: records, ..archive::Hop::default() });
                continue;
            };
            let record = archive::record_at(sheet, year, number);
            let due = second::Hit { record: number, at: record.at, total: record.total };
            self.same(asked, answer, hop(Ok(second::Hop { hit: Some(due), looked: number + 1 })));
            self.same(|| format!("code of record {number} at {year}"), record.code, u64::from(code));
        }
        true
    }

    /// An answer rests only on what is looked at, and on these fields: all other
    /// bytes may be any, and those after it may be missing. With one byte less the
    /// answer is another.
    fn rests_on_headers(
        &mut self,
        sheet: &[u8],
        answer: archive::Hop,
        also: &[Field],
        hop: impl Fn(&[u8]) -> archive::Hop,
        numbers: &mut Numbers,
    ) {
        let mut other = match numbers.chance(1, 2) {
            true => numbers.bytes(sheet.len()),
            false => sheet.iter().map(|byte| !byte).collect(),
        };
        let looked_at = looked_at(sheet, &answer);
        for field in looked_at.iter().chain(also).filter(|field| field.after() <= sheet.len()) {
            other[field.range()].copy_from_slice(&sheet[field.range()]);
        }
        let shortest = shortest(sheet, &answer).min(sheet.len());
        self.same(|| "hop with all else altered".into(), hop(&other), answer);
        self.same(|| format!("hop with all else altered, in {shortest} bytes"), hop(&other[..shortest]), answer);
        if let Some(shorter) = shortest.checked_sub(1) {
            self.same(|| format!("whether {shorter} bytes are too few"), hop(&other[..shorter]) != answer, true);
        }
    }

    /// Where a hop ended, or why it was refused.
    fn meet_end(&mut self, way: usize, sheet: &[u8], due: &Result<second::Hop, Refusal>) {
        let second::Hop { hit, looked } = match due {
            Ok(hop) => hop,
            Err(refusal) => return self.meet_reason(reasons::of_hop(sheet, *refusal)),
        };
        let end = match hit {
            None if *looked == 0 => End::NoRecord,
            None => End::NoHit,
            Some(hit) if hit.record == 0 => End::FirstRecord,
            Some(_) if *looked == u64::from(u32_in(sheet, descriptor::COUNT)) => End::LastRecord,
            Some(_) => End::InnerRecord,
        };
        self.met.ends[way][end as usize] = 1;
    }
}

/// The archive's answer that this one calls for.
fn hop(due: Result<second::Hop, Refusal>) -> archive::Hop {
    let Refusal { number, place, year } = refusal_of(&due);
    let none = archive::Hop { number, place, year, ..archive::Hop::default() };
    match due {
        Err(_) => none,
        Ok(second::Hop { hit: None, looked }) => archive::Hop { looked, ..none },
        Ok(second::Hop { hit: Some(second::Hit { record, at, total }), looked }) => {
            archive::Hop { found: 1, record, at, total, looked, ..none }
        }
    }
}
