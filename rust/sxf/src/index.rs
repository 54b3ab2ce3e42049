//! A code index: a file beside a sheet that has the class code, the place and the localisation of each of its records, in record order (02,
//! requests 3 and 7).
//!
//! ```
//! use sxf::{Index, Setting, Sheet};
//! # let bytes = include_bytes!("../../../samples/mark-small.sxf");
//! let sheet = Sheet::read(bytes, Setting::Y2017)?;
//! let kept: Vec<u8> = sheet.index()?.into_bytes(); // a file's bytes
//!
//! let index = Index::read(kept)?;
//! let lakes = index.select(31_120_000);
//! assert_eq!(lakes.len(), 2);
//! for record in sheet.records_of(lakes) {
//!     let record = record?;
//!     println!("record {} at {}, {} items", record.number(), record.place(), record.items().count());
//! }
//! # Ok::<(), Box<dyn std::error::Error>>(())
//! ```
//!
//! # Old index files
//!
//! While places in a sheet had three bytes, a block had 63 entries; now it has [`BLOCK_FULL`]. "Old blocks stay readable, a file holds one kind only,
//! and new ones are always written in the new kind" (02, request 7). So [`Index::read`] takes either kind, and its entries and selections are the same;
//! what [`Index::build`] makes is of the new kind. Where a later block is of another kind than the first, it is BAD BLOCK at that block. An index that
//! was read keeps the bytes that it had: to have it in the new kind, build it again.
//!
//! # Which sheet it belongs to
//!
//! An index does not say which sheet it was built from, and nothing in it can tell. "The selection is promised for an index built from that very
//! sheet" (02, request 3): for that sheet [`Index::select`] gives what [`Sheet::select`](crate::Sheet::select) gives. The index of another sheet,
//! or of this one before it was changed, is read and asked all the same, and gives that sheet's records. [`Sheet::record_of`] and
//! [`Sheet::records_of`] then tell a pick that is no record of their sheet; but what such an index leaves out nobody can see by it. So keep an
//! index beside its sheet and build it again after each change. Who has to be sure builds it again and compares the entries, since an old index
//! file has other bytes:
//!
//! ```
//! # let bytes = include_bytes!("../../../samples/mark-small.sxf");
//! # let sheet = sxf::Sheet::read(bytes, sxf::Setting::Y2017)?;
//! # let index = sxf::Index::build(include_bytes!("../../../samples/Q.sxf"), sxf::Setting::Y2017)?;
//! let belongs = sheet.index()?.entries().eq(index.entries());
//! # assert!(!belongs);
//! # Ok::<(), sxf::Refusal>(())
//! ```
//!
//! [`Sheet::record_of`]: crate::Sheet::record_of
//! [`Sheet::records_of`]: crate::Sheet::records_of
use crate::reference::Localisation;
use crate::refusal::low32;
use crate::{Picks, Refusal, Setting};
use std::vec;
use sxf_sys::index::{ENTRY_CODE, ENTRY_LOCALISATION, ENTRY_PLACE, ENTRY_WIDTH, PICK_WIDTH};
use sxf_sys::lent;

pub use sxf_sys::index::{index_length, BLOCK_FULL, BLOCK_SIZE};

/// How long an index is at most, of either kind: "block number from 0 (2 bytes)" has no more blocks. That of a sheet is shorter.
pub const LONGEST: usize = (u16::MAX as usize + 1) * BLOCK_SIZE;

/// An index that was checked: its bytes. Two are equal where their bytes are, so an old one and a new one of the same sheet are not: compare their
/// [entries](Index::entries).
#[derive(Clone, Debug, PartialEq, Eq)]
pub struct Index {
    bytes: Vec<u8>,
    entries: usize,
    blocks: usize,
}

impl Index {
    /// Builds the index of a sheet, or says why the sheet is refused. [`Sheet::index`](crate::Sheet::index) does it for a sheet that was read.
    ///
    /// ```
    /// use sxf::{Index, Refusal, Setting};
    /// # let sheet = include_bytes!("../../../samples/Q.sxf");
    /// let index = Index::build(sheet, Setting::Y2017)?;
    /// assert_eq!((index.entry_count(), index.block_count(), index.bytes().len()), (1, 1, 512));
    /// assert_eq!(Index::build(b"no sheet", Setting::Y2017).unwrap_err().number, Refusal::SHORT);
    /// # Ok::<(), Refusal>(())
    /// ```
    pub fn build(sheet: &[u8], setting: Setting) -> Result<Index, Refusal> {
        let sizes = crate::check(sheet, setting)?;
        Index::build_sized(sheet, setting, sizes.records)
    }

    /// Builds the index of a sheet that has so many records, as checking it has answered.
    pub(crate) fn build_sized(sheet: &[u8], setting: Setting, records: usize) -> Result<Index, Refusal> {
        let mut bytes = vec![0; index_length(records)];
        let answer = lent::index_build(sheet, setting.year(), &mut bytes);
        Refusal::answered(answer.number, answer.place, answer.year)?;
        bytes.truncate(answer.length as usize);
        Index::read(bytes)
    }

    /// Takes the bytes of an index that was kept, [old or new](crate::index#old-index-files), or refuses them: BAD BLOCK at the first byte of the first
    /// block that is wrong. What entries hold is not judged.
    ///
    /// ```
    /// use sxf::{Index, Refusal};
    /// assert_eq!(Index::read([])?.entry_count(), 0);
    /// assert_eq!(Index::read([0; 513]), Err(Refusal { number: Refusal::BAD_BLOCK, place: 0, year: 0 }));
    /// # Ok::<(), Refusal>(())
    /// ```
    pub fn read(bytes: impl Into<Vec<u8>>) -> Result<Index, Refusal> {
        let bytes = bytes.into();
        let answer = lent::index_check(&bytes);
        Refusal::answered(answer.number, answer.place, answer.year)?;
        Ok(Index { bytes, entries: answer.entries as usize, blocks: answer.blocks as usize })
    }

    /// Its bytes, as they are kept in a file.
    pub fn bytes(&self) -> &[u8] {
        &self.bytes
    }

    /// Its bytes, to keep.
    pub fn into_bytes(self) -> Vec<u8> {
        self.bytes
    }

    /// How many entries it has: as many as its sheet has records.
    pub fn entry_count(&self) -> usize {
        self.entries
    }

    /// How many blocks they stand in: [`BLOCK_FULL`] in each but the last, and in an old index file 63.
    pub fn block_count(&self) -> usize {
        self.blocks
    }

    /// Its entries, in record order.
    ///
    /// ```
    /// # let sheet = include_bytes!("../../../samples/labels.sxf");
    /// let index = sxf::Index::build(sheet, sxf::Setting::Y2017)?;
    /// let codes: Vec<u32> = index.entries().map(|entry| entry.code).collect();
    /// assert_eq!(codes, [91_000_000, 0]);
    /// # Ok::<(), sxf::Refusal>(())
    /// ```
    pub fn entries(&self) -> Entries {
        let mut numbers = vec![[0; ENTRY_WIDTH]; self.entries];
        // The index was checked and the room is what it takes, so a refusal, of length 0, would go against the library's contract.
        let answer = lent::index_read(&self.bytes, numbers.as_flattened_mut());
        numbers.truncate(answer.length as usize / ENTRY_WIDTH);
        Entries { numbers: numbers.into_iter() }
    }

    /// The records of a class code in the sheet that it was built from, in record order.
    ///
    /// ```
    /// # let bytes = include_bytes!("../../../samples/labels.sxf");
    /// # let sheet = sxf::Sheet::read(bytes, sxf::Setting::Y2017)?;
    /// let index = sheet.index()?;
    /// assert!(index.select(91_000_000).eq(sheet.select(91_000_000)?));
    /// assert_eq!(index.select(7).next(), None);
    /// # Ok::<(), sxf::Refusal>(())
    /// ```
    pub fn select(&self, code: u32) -> Picks {
        let mut numbers = vec![[0; PICK_WIDTH]; self.entries];
        // As in `entries` there is no refusal.
        let answer = lent::index_select(&self.bytes, code, numbers.as_flattened_mut());
        Picks::written(code, numbers, answer.length)
    }
}

/// An entry of an index: what it has of one record. Only an index that was built from a sheet is sure to have what a sheet can have.
#[derive(Clone, Copy, Debug, PartialEq, Eq, Hash)]
pub struct Entry {
    /// The record's class code.
    pub code: u32,
    /// Where the record starts in the sheet.
    pub place: usize,
    /// The record's localisation, as a number; over 5 is none.
    pub localisation_number: u32,
}

impl Entry {
    fn of(numbers: [u64; ENTRY_WIDTH]) -> Entry {
        Entry {
            code: low32(numbers[ENTRY_CODE]),
            place: numbers[ENTRY_PLACE] as usize,
            localisation_number: low32(numbers[ENTRY_LOCALISATION]),
        }
    }

    /// The localisation; none for a number over 5.
    pub fn localisation(&self) -> Option<Localisation> {
        Localisation::of(self.localisation_number)
    }
}

/// The entries of an index, in record order.
#[derive(Clone, Debug)]
pub struct Entries {
    numbers: vec::IntoIter<[u64; ENTRY_WIDTH]>,
}

impl Iterator for Entries {
    type Item = Entry;

    fn next(&mut self) -> Option<Entry> {
        self.numbers.next().map(Entry::of)
    }

    fn size_hint(&self) -> (usize, Option<usize>) {
        self.numbers.size_hint()
    }
}

impl ExactSizeIterator for Entries {}
