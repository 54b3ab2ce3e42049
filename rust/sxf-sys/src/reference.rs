//! The bits of the reference bytes 20 to 22 of a record as one number, byte 20 lowest (01, Record). Bits 0 to 3 are the localisation.

/// The four bits of the localisation.
pub const LOCALISATION: u64 = 0x0F;
/// Byte 20, bit 4.
pub const MULTIPOLYGON: u64 = 1 << 4;
/// Byte 21, bit 0.
pub const COMPRESSED_GRAPHICS: u64 = 1 << 8;
/// Byte 21, bit 1: the record has items.
pub const SEMANTICS: u64 = 1 << 9;
/// Byte 21, bit 2: planar elements are twice as wide.
pub const ELEMENT_SIZE: u64 = 1 << 10;
/// Byte 21, bit 3: not carried.
pub const BINDING_VECTOR: u64 = 1 << 11;
/// Byte 21, bit 4: the texts of the parts are in UTF-16.
pub const UNICODE: u64 = 1 << 12;
/// Byte 21, bit 5.
pub const ABOVE_ALL: u64 = 1 << 13;
/// Byte 21, bit 6.
pub const BELOW_ALL: u64 = 1 << 14;
/// Byte 21, bit 7.
pub const VERTICAL_ALIGNMENT: u64 = 1 << 15;
/// Byte 22, bit 1: a point has a height.
pub const THREE_DIMENSIONS: u64 = 1 << 17;
/// Byte 22, bit 2.
pub const FLOATING: u64 = 1 << 18;
/// Byte 22, bit 3: each part has a text; "only with localisation 3 or 5".
pub const TEXT_IN_METRIC: u64 = 1 << 19;
/// Byte 22, bit 4: not carried.
pub const GRAPHICS: u64 = 1 << 20;
/// Byte 22, bit 5.
pub const SCALABLE: u64 = 1 << 21;
/// Byte 22, bits 6-7.
pub const SPLINE: u64 = 3 << 22;
