//! "Descriptor, 52 bytes at 400 (000, table 2)" (01). Places are places of the sheet.
use super::Field;

/// "400 identifier 0x00544144"
pub const IDENTIFIER: Field = Field::new(400, 4);
/// What stands there.
pub const IDENTIFIER_IS: u32 = 0x0054_4144;
/// "404 length 52"
pub const OWN_LENGTH: Field = Field::new(404, 4);
/// What stands there.
pub const OWN_LENGTH_IS: u32 = 52;
/// "408 designation, 32"
pub const DESIGNATION: Field = Field::new(408, 32);
/// "440 record count"
pub const COUNT: Field = Field::new(440, 4);
/// The four bytes at 444, which are carried: flags, label coding, secrecy, and the byte of automatic GUID and edit date.
pub const CARRIED: Field = Field::new(444, 4);
/// "448 four zero bytes"
pub const RESERVED: Field = Field::new(448, 4);

/// Of the carried bytes: "444 flags".
pub const FLAGS: Field = Field::new(444, 1);
/// Of the carried bytes: "445 label coding".
pub const LABELS: Field = Field::new(445, 1);
/// Of the carried bytes: "446 secrecy".
pub const SECRECY: Field = Field::new(446, 1);
/// Of the carried bytes: "447 bit 0 automatic GUID, bit 1 edit date".
pub const KEEPING: Field = Field::new(447, 1);

/// A field of the carried bytes, counted from the first of them.
pub const fn in_carried(field: Field) -> Field {
    field.within(CARRIED)
}
