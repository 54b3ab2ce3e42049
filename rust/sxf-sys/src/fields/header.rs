//! "Record (000, table 3)" (01): the header of a record, counted from the record's start.
use super::Field;

/// The header's own size; the metric follows.
pub const SIZE: usize = 32;

/// "+0 identifier 0x7FFF7FFF"
pub const IDENTIFIER: Field = Field::new(0, 4);
/// What stands there.
pub const IDENTIFIER_IS: u32 = 0x7FFF_7FFF;
/// "+4 total length"
pub const TOTAL: Field = Field::new(4, 4);
/// "+8 metric length"
pub const METRIC: Field = Field::new(8, 4);
/// "+12 class code"
pub const CODE: Field = Field::new(12, 4);
/// "+16 number in group"
pub const IN_GROUP: Field = Field::new(16, 2);
/// "+18 group number"
pub const GROUP: Field = Field::new(18, 2);
/// "+20 to +22 reference bytes": all three, and each.
pub const REFERENCE: Field = Field::new(20, 3);
/// The first reference byte.
pub const BYTE20: Field = Field::new(20, 1);
/// The second reference byte.
pub const BYTE21: Field = Field::new(21, 1);
/// The third reference byte.
pub const BYTE22: Field = Field::new(22, 1);
/// "+23 generalisation"
pub const GENERALISATION: Field = Field::new(23, 1);
/// "+24 a word"
pub const WORD: Field = Field::new(24, 4);
/// "+28 subobjects"
pub const SUBOBJECTS: Field = Field::new(28, 2);
/// "+30 points"
pub const POINTS: Field = Field::new(30, 2);
