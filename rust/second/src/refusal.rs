//! The refusals: their numbers, and the ways to give one.

/// Why a sheet, a table, a text, an index or a question is refused.
#[derive(Clone, Copy, PartialEq, Eq, Debug)]
pub struct Refusal {
    /// The documents' number of the refusal, 1 to 18.
    pub number: u64,
    /// A byte offset in the sheet or, of the writer's table, a number's index;
    /// of a text, the index of a byte or of a 16-bit unit; of a code index, a
    /// byte offset in it.
    pub place: u64,
    /// The year of the feature for TOO NEW, else 0.
    pub year: u64,
}

impl Refusal {
    /// A sheet over the limit.
    pub const TOO_LONG: u64 = 1;
    /// Fewer bytes than the heads or a record need.
    pub const SHORT: u64 = 2;
    /// An identifier differs.
    pub const NOT_SXF: u64 = 3;
    /// A fixed length or the edition differs.
    pub const EDITION: u64 = 4;
    /// The sum differs.
    pub const SUM: u64 = 5;
    /// In reading a text field without a zero, in writing a text that is too
    /// long for its field or has a zero in it, or a closing zero missing.
    pub const TEXT: u64 = 6;
    /// A value not allowed at a flag, code or reserved field.
    pub const RESERVED: u64 = 7;
    /// A feature later than the setting.
    pub const TOO_NEW: u64 = 8;
    /// The binding vector or the graphics bit.
    pub const NOT_CARRIED: u64 = 9;
    /// Something in a record does not fit, or is left over.
    pub const LENGTH: u64 = 10;
    /// A count of points that does not agree with the mark, or under the mark
    /// with the word.
    pub const COUNT: u64 = 11;
    /// An item's type, scale or length.
    pub const SEMANTIC: u64 = 12;
    /// Bytes after the last record.
    pub const LEFT_OVER: u64 = 13;
    /// The record table does not hold together.
    pub const TABLE: u64 = 14;
    /// A lent output too small.
    pub const ROOM: u64 = 15;
    /// A setting that is none of the nine, no such record, or no such coding.
    pub const ASK: u64 = 16;
    /// A byte without a character in its coding, or a 16-bit unit without a
    /// byte (document 02, request 1).
    pub const NO_CHARACTER: u64 = 17;
    /// A block of a code index with a wrong length, number, count, filling or
    /// sum (document 02, request 3), or of another kind than its file (request 7).
    pub const BAD_BLOCK: u64 = 18;

    /// A refusal with no year.
    pub(crate) fn new(number: u64, place: u64) -> Refusal {
        Refusal { number, place, year: 0 }
    }

    /// TOO NEW, for a feature of `year`.
    pub(crate) fn too_new(place: u64, year: u64) -> Refusal {
        Refusal { number: Refusal::TOO_NEW, place, year }
    }
}

/// Refuses with `number` at `place` unless `holds`.
#[inline]
pub(crate) fn require(holds: bool, number: u64, place: u64) -> Result<(), Refusal> {
    if holds {
        Ok(())
    } else {
        Err(Refusal::new(number, place))
    }
}
