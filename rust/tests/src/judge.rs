//! Asks the archive and `second` the same, and compares all of both answers
//! and all memory that was lent.

mod hop;
mod index;
mod meanings;
mod reading;
mod texts;
mod writing;

use crate::archive;
use crate::features;
use crate::memory::Memory;
use crate::numbers::Numbers;
use crate::tails;
use crate::tally::{Call, Reason, Tally};
use second::{Head, Refusal, Table, Tails};
use std::fmt::Debug;

/// One case's comparisons, and the memory that is lent for them.
#[derive(Default)]
pub struct Judge {
    /// What this case has met.
    pub met: Tally,
    /// How often two answers were compared.
    pub comparisons: u64,
    /// Whether what the case is about was accepted.
    pub accepted: bool,
    /// How the case was made.
    pub notes: Vec<String>,
    /// Where the two do not agree.
    pub disagreements: Vec<String>,
    /// Whether to note what is lent in full.
    tells: bool,
    sheet: Memory<u8>,
    table: Memory<u64>,
    elements: Memory<u64>,
    bytes: Memory<u8>,
    out: Memory<u8>,
    text: Memory<u8>,
    units: Memory<u16>,
    units_out: Memory<u16>,
    index: Memory<u8>,
    entries: Memory<u64>,
    picks: Memory<u64>,
}

/// How many disagreements of one case are told.
const MOST_TOLD: usize = 6;

/// How much is asked of a sheet at one year.
#[derive(Clone, Copy, PartialEq, Eq)]
pub enum Care {
    /// Every call, with all rooms and many record numbers.
    Whole,
    /// Every call, once or twice.
    Once,
    /// Once what goes through all of a large sheet: to check, to unfold, to index,
    /// to hop over and to write it.
    Large,
    /// Only whether it is accepted.
    Check,
}

fn refusal_of<T>(result: &Result<T, Refusal>) -> Refusal {
    result.as_ref().err().copied().unwrap_or(Refusal { number: 0, place: 0, year: 0 })
}

impl Judge {
    /// Forgets the last case. What is lent depends on the salt.
    pub fn start(&mut self, salt: u64) {
        self.sheet.reset(salt);
        self.table.reset(salt);
        self.elements.reset(salt);
        self.bytes.reset(salt);
        self.out.reset(salt);
        self.text.reset(salt);
        self.units.reset(salt);
        self.units_out.reset(salt);
        self.index.reset(salt);
        self.entries.reset(salt);
        self.picks.reset(salt);
        self.met = Tally::default();
        self.comparisons = 0;
        self.accepted = false;
        self.notes.clear();
        self.disagreements.clear();
    }

    /// Notes what is lent in full from here on.
    pub fn tell_all(&mut self) {
        self.tells = true;
    }

    /// Says how the case was made.
    pub fn note(&mut self, note: String) {
        self.notes.push(note);
    }

    /// Says under what the disagreements after the first `before` came up.
    pub fn context(&mut self, before: usize, context: impl FnOnce() -> String) {
        if self.disagreements.len() > before {
            let context = context();
            for disagreement in &mut self.disagreements[before..] {
                disagreement.push_str("; ");
                disagreement.push_str(&context);
            }
        }
    }

    fn disagree(&mut self, disagreement: impl FnOnce() -> String) {
        if self.disagreements.len() < MOST_TOLD {
            self.disagreements.push(disagreement());
        }
    }

    fn meet(&mut self, call: Call, number: u64) {
        // A number that is no refusal is a disagreement, told elsewhere.
        if let Some(met) = self.met.answers[call as usize].get_mut(number as usize) {
            *met = 1;
        }
    }

    fn meet_features(&mut self, head: &Head, table: &Table) {
        let has = features::of(head, table);
        for (feature, met) in self.met.features.iter_mut().enumerate() {
            *met |= (has >> feature & 1) as u64;
        }
    }

    /// What stands in the tails of an accepted sheet, and which are dirty.
    fn meet_tails(&mut self, tails: &Tails) {
        for (met, tail) in self.met.tails.iter_mut().zip(tails.by_place()) {
            met[tails::kind(tail) as usize] = 1;
        }
        self.met.dirty[tails::dirty(tails.clean())] = 1;
    }

    fn meet_reason(&mut self, reason: Reason) {
        self.met.reasons.insert(reason, 1);
    }

    /// Compares two answers.
    pub fn same<T: PartialEq + Debug>(&mut self, asked: impl FnOnce() -> String, archive: T, second: T) {
        self.comparisons += 1;
        if archive != second {
            self.disagree(|| format!("{}: the archive says {archive:?}, second {second:?}", asked()));
        }
    }

    fn whole(&mut self, asked: impl FnOnce() -> String, name: &str, memory: Result<(), i64>) {
        self.comparisons += 1;
        if let Err(index) = memory {
            self.disagree(|| format!("{}: the {name} are not what they should be at {index}", asked()));
        }
    }
}

/// How much longer an output may be than what is written to it: more than a
/// loop over wide pieces would write past its end.
const MORE: usize = 70;

/// The lengths of outputs that so much is to be written into: larger, none, one
/// too small, any up to its own, its own.
fn rooms(length: usize, numbers: &mut Numbers) -> [usize; 5] {
    let more = length + 1 + numbers.index(MORE);
    let some = numbers.index(length + 1);
    [more, 0, length.saturating_sub(1), some, length]
}

/// The archive's answer that this one calls for.
fn written<T>(due: &Result<Vec<T>, Refusal>) -> archive::Written {
    let Refusal { number, place, year } = refusal_of(due);
    let length = due.as_ref().map_or(0, Vec::len) as u64;
    archive::Written { number, place, year, length }
}

/// What is larger than this is not told in full.
const TOLD: usize = 100_000;

/// Bytes as a person can take them into a file.
fn hex(bytes: &[u8]) -> String {
    bytes.iter().map(|byte| format!("{byte:02x}")).collect()
}

fn table_sizes(table: &Table) -> [usize; 3] {
    [table.numbers.len(), table.elements.len(), table.bytes.len()]
}
