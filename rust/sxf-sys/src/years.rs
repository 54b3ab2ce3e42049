//! The settings, and the year of each feature (01, Years). What is no feature has no year of its own, and every setting has it.

/// "The setting is 1999, 2004, 2006, 2008, 2012, 2014, 2015, 2016 or 2017".
pub const SETTINGS: [u32; 9] = [1999, 2004, 2006, 2008, 2012, 2014, 2015, 2016, 2017];

/// Bits 6-7 of byte 22.
pub const SPLINE_BITS: u32 = 2004;
/// Any byte that is not zero at +384.
pub const NORTH_OFFSET: u32 = 2004;
/// Any byte that is not zero at +392.
pub const EAST_OFFSET: u32 = 2004;
/// The mark: the points at +30 are 65535.
pub const MARK_65535: u32 = 2004;
/// An accuracy that is not 0.
pub const ACCURACY_SET: u32 = 2006;
/// Bit 0 at +99.
pub const SPECIAL_SORTING: u32 = 2008;
/// Bit 3 of byte 21. It is not carried either.
pub const BINDING_VECTOR: u32 = 2008;
/// Bit 4 of byte 21.
pub const UNICODE: u32 = 2008;
/// An item of type 128.
pub const TYPE_128: u32 = 2012;
/// Bit 5 of byte 21.
pub const ABOVE_ALL: u32 = 2014;
/// Bit 6 of byte 21.
pub const BELOW_ALL: u32 = 2014;
/// Bit 0 of byte 21.
pub const COMPRESSED_GRAPHICS: u32 = 2015;
/// Bit 4 of byte 20.
pub const MULTIPOLYGON: u32 = 2016;
/// Bit 0 at 447.
pub const AUTOMATIC_GUID: u32 = 2017;
// "Undated in 000 and set here to 2017": the three that follow.
/// An EPSG code that is not 0.
pub const EPSG_SET: u32 = 2017;
/// Bit 7 of byte 21.
pub const VERTICAL_ALIGNMENT: u32 = 2017;
/// Bit 1 at 447.
pub const EDIT_DATE: u32 = 2017;
