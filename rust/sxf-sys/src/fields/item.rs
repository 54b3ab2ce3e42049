//! "Each item: code (2), type (1), scale (1), value." (01, Record) Counted from the item's start.
use super::Field;

/// The size of the item's head: code, type, scale.
pub const SIZE: usize = 4;

/// Its code.
pub const CODE: Field = Field::new(0, 2);
/// Its type.
pub const TYPE: Field = Field::new(2, 1);
/// Its scale byte.
pub const SCALE: Field = Field::new(3, 1);
/// "128: scale 0xFF, then a 4-byte length"
pub const LONG_LENGTH: Field = Field::new(4, 4);
