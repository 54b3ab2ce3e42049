//! A selection by class code: the records that have it, by an index or by the sheet itself.
use crate::record::Record;
use crate::reference::Localisation;
use crate::refusal::low32;
use crate::{Refusal, Setting};
use std::error::Error;
use std::fmt;
use std::vec;
use sxf_sys::index::{PICK_LOCALISATION, PICK_PLACE, PICK_RECORD, PICK_WIDTH};
use sxf_sys::lent;

/// Selects the records of a class code from a sheet, or says why the sheet is refused. Nothing is unfolded; to go on to the records, read the
/// sheet and ask [`Sheet::select`](crate::Sheet::select).
///
/// ```
/// use sxf::{select, Setting};
/// # let sheet = include_bytes!("../../../samples/mark-small.sxf");
/// let lakes: Vec<usize> = select(sheet, Setting::Y2017, 31_120_000)?.map(|pick| pick.place).collect();
/// assert_eq!(lakes, [452, 524]);
/// # Ok::<(), sxf::Refusal>(())
/// ```
pub fn select(sheet: &[u8], setting: Setting, code: u32) -> Result<Picks, Refusal> {
    let sizes = crate::check(sheet, setting)?;
    select_sized(sheet, setting, code, sizes.records)
}

/// Selects from a sheet that has so many records, as checking it has answered: there is room for each of them.
pub(crate) fn select_sized(sheet: &[u8], setting: Setting, code: u32, records: usize) -> Result<Picks, Refusal> {
    let mut numbers = vec![[0; PICK_WIDTH]; records];
    let answer = lent::select(sheet, setting.year(), code, numbers.as_flattened_mut());
    Refusal::answered(answer.number, answer.place, answer.year)?;
    Ok(Picks::written(code, numbers, answer.length))
}

/// A record that was selected: its number, its place and its localisation, with the code that was asked for. By the index of another sheet it may
/// be no record of the sheet at hand: [`Sheet::record_of`](crate::Sheet::record_of) tells.
#[derive(Clone, Copy, Debug, PartialEq, Eq, Hash)]
pub struct Pick {
    /// The class code that was asked for.
    pub code: u32,
    /// The record's number, from 0.
    pub record: usize,
    /// Where the record starts in the sheet.
    pub place: usize,
    /// The record's localisation, as a number; over 5 is none.
    pub localisation_number: u32,
}

impl Pick {
    fn written(code: u32, numbers: [u64; PICK_WIDTH]) -> Pick {
        Pick {
            code,
            record: numbers[PICK_RECORD] as usize,
            place: numbers[PICK_PLACE] as usize,
            localisation_number: low32(numbers[PICK_LOCALISATION]),
        }
    }

    /// What a selection by its code gives for a record.
    pub fn of(record: &Record<'_>) -> Pick {
        Pick {
            code: record.code(),
            record: record.number(),
            place: record.place(),
            localisation_number: record.reference().localisation_number(),
        }
    }

    /// The localisation; none for a number over 5.
    pub fn localisation(&self) -> Option<Localisation> {
        Localisation::of(self.localisation_number)
    }

    /// The sheet's own record of its number, if there is one and it is the pick's.
    pub(crate) fn held_against<'a>(&self, own: Option<Record<'a>>) -> Result<Record<'a>, OtherSheet> {
        own.filter(|record| Pick::of(record) == *self).ok_or(OtherSheet { pick: *self, own: own.as_ref().map(Pick::of) })
    }
}

impl fmt::Display for Pick {
    fn fmt(&self, f: &mut fmt::Formatter<'_>) -> fmt::Result {
        let &Pick { code, record, place, localisation_number } = self;
        write!(f, "record {record} at {place} ({place:#x}), code {code}, localisation {localisation_number}")
    }
}

/// What a selection gives, in record order.
#[derive(Clone, Debug)]
pub struct Picks {
    code: u32,
    numbers: vec::IntoIter<[u64; PICK_WIDTH]>,
}

impl Picks {
    /// The picks by this code, of which the library wrote so many numbers.
    pub(crate) fn written(code: u32, mut numbers: Vec<[u64; PICK_WIDTH]>, length: u64) -> Picks {
        numbers.truncate(length as usize / PICK_WIDTH);
        Picks { code, numbers: numbers.into_iter() }
    }
}

impl Iterator for Picks {
    type Item = Pick;

    fn next(&mut self) -> Option<Pick> {
        self.numbers.next().map(|numbers| Pick::written(self.code, numbers))
    }

    fn size_hint(&self) -> (usize, Option<usize>) {
        self.numbers.size_hint()
    }
}

impl ExactSizeIterator for Picks {}

/// A pick that is no record of the sheet at hand. An index that gave it was built from another sheet, or from this one before it was changed.
#[derive(Clone, Copy, Debug, PartialEq, Eq)]
pub struct OtherSheet {
    /// The pick.
    pub pick: Pick,
    /// What the sheet has under that number; none where it has no such record.
    pub own: Option<Pick>,
}

impl fmt::Display for OtherSheet {
    fn fmt(&self, f: &mut fmt::Formatter<'_>) -> fmt::Result {
        write!(f, "the pick is no record of this sheet: it is {}, where the sheet has ", self.pick)?;
        match self.own {
            Some(own) => write!(f, "{own}"),
            None => write!(f, "no record {}", self.pick.record),
        }
    }
}

impl Error for OtherSheet {}
