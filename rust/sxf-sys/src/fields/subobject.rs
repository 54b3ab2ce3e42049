//! "Each subobject starts with N1 and N2, two bytes each." (01, Record)
use super::Field;

/// The size of the two together.
pub const SIZE: usize = 4;

/// N1: the upper half of the count under the mark, else 0.
pub const N1: Field = Field::new(0, 2);
/// N2: the count, or its lower half.
pub const N2: Field = Field::new(2, 2);
