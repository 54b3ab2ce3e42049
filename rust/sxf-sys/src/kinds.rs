//! What `sxf_coordinate_of` and `sxf_value_of` say that a number is.

/// No number, but a text. No element is one.
pub const NO_NUMBER: u64 = 0;
/// An integer. No item is one.
pub const WHOLE: u64 = 1;
/// A floating number of four bytes. No item is one.
pub const SINGLE: u64 = 2;
/// A floating number of eight bytes.
pub const DOUBLE: u64 = 3;
/// Floating, and no number.
pub const NAN: u64 = 4;
/// An integer times a power of ten. No element is one.
pub const DECIMAL: u64 = 5;
