//! The refusals by the documents' numbers and names (01, The refusals; 02, requests 1, 3, 6 and 7), as the answers have them; [`OK`] is an answer that is none.

/// No refusal.
pub const OK: u64 = 0;
/// The sheet is over the limit.
pub const TOO_LONG: u64 = 1;
/// Under 452 bytes; under 32 left for a record; a total length past the end.
pub const SHORT: u64 = 2;
/// An identifier differs.
pub const NOT_SXF: u64 = 3;
/// A fixed length or the edition differs.
pub const EDITION: u64 = 4;
/// The sum, of which the low 32 bits are kept, differs.
pub const SUM: u64 = 5;
/// In reading a text field has no zero at all; in writing a text is too long for its field or has a zero in it; a closing zero is missing.
pub const TEXT: u64 = 6;
/// A value that is not allowed at a flag, code or reserved field.
pub const RESERVED: u64 = 7;
/// A feature later than the setting.
pub const TOO_NEW: u64 = 8;
/// Binding vector or graphics bit.
pub const NOT_CARRIED: u64 = 9;
/// A length that is too small, does not fit or leaves bytes over.
pub const LENGTH: u64 = 10;
/// A count of points does not agree with the record's mark, or under the mark with the word at +24.
pub const COUNT: u64 = 11;
/// An item's unknown type, bad scale, or bad length of type 128.
pub const SEMANTIC: u64 = 12;
/// Bytes after the last record.
pub const LEFT_OVER: u64 = 13;
/// The numbers given are not a record table.
pub const TABLE: u64 = 14;
/// A lent output is too small.
pub const ROOM: u64 = 15;
/// The setting is not one of nine, the record number is not below the count, a point has no such dimension, or there is no such coding.
pub const ASK: u64 = 16;
/// A byte of a text has no character in its coding, or a 16-bit unit has no byte.
pub const NO_CHARACTER: u64 = 17;
/// A block of a code index has a wrong length, number, count, kind, filling or sum.
pub const BAD_BLOCK: u64 = 18;
