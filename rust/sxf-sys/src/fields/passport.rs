//! "Passport, 400 bytes (000, table 1)" (01). Places are places of the sheet.
use super::Field;

/// "+0 identifier 0x00465853"
pub const IDENTIFIER: Field = Field::new(0, 4);
/// What stands there.
pub const IDENTIFIER_IS: u32 = 0x0046_5853;
/// "+4 length 400"
pub const OWN_LENGTH: Field = Field::new(4, 4);
/// What stands there.
pub const OWN_LENGTH_IS: u32 = 400;
/// "+8 edition 0x00040000"
pub const EDITION: Field = Field::new(8, 4);
/// What stands there.
pub const EDITION_IS: u32 = 0x0004_0000;
/// "+12 sum"
pub const SUM: Field = Field::new(12, 4);
/// "+16 date, 12 bytes of text"
pub const DATE: Field = Field::new(16, 12);
/// "+28 designation, 32"
pub const DESIGNATION: Field = Field::new(28, 32);
/// "+60 scale denominator"
pub const SCALE: Field = Field::new(60, 4);
/// "+64 title, 32"
pub const TITLE: Field = Field::new(64, 32);
/// "+96 to +399 the rest": carried.
pub const REST: Field = Field::new(96, 304);

/// In the rest: "+96 flags".
pub const FLAGS: Field = Field::new(96, 1);
/// In the rest: "+97 label coding".
pub const LABELS: Field = Field::new(97, 1);
/// In the rest: "+98 accuracy".
pub const ACCURACY: Field = Field::new(98, 1);
/// In the rest: "+99 bit 0 special sorting".
pub const SORTING: Field = Field::new(99, 1);
/// In the rest: "+100 EPSG".
pub const EPSG: Field = Field::new(100, 4);
/// In the rest: "+104 eight doubles, plane corners".
pub const CORNERS: Field = Field::new(104, 64);
/// In the rest: "in metres, radians or degrees as +236 is 0, 64 or 65".
pub const UNIT: Field = Field::new(236, 1);
/// In the rest: the unit of heights, 0 for metres (000, table 1).
pub const HEIGHT_UNIT: Field = Field::new(237, 1);
/// In the rest: "+312 signed resolution".
pub const RESOLUTION: Field = Field::new(312, 4);
/// In the rest: the class code of the sheet's frame. "The frame of the sheet is the record whose code equals passport +348" (02, request 5).
pub const FRAME: Field = Field::new(348, 4);
/// In the rest: the first of "+384 and +392 north and east offsets".
pub const NORTH: Field = Field::new(384, 8);
/// In the rest: the second of them.
pub const EAST: Field = Field::new(392, 8);

/// A field of the rest, counted from the start of the rest.
pub const fn in_rest(field: Field) -> Field {
    field.within(REST)
}
