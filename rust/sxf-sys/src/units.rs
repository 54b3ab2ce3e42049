//! The units that `sxf_unit_of` and `sxf_coordinate_of` answer. A height is in metres or of unknown unit, by the byte at +237.

/// The sheet is not real: points of the device.
pub const DEVICE_POINTS: u64 = 1;
/// A real sheet with 0 at +236.
pub const METRES: u64 = 2;
/// A real sheet with 64 at +236.
pub const RADIANS: u64 = 3;
/// A real sheet with 65 at +236.
pub const DEGREES: u64 = 4;
/// A real sheet with another byte at +236, which is answered too.
pub const UNKNOWN_UNIT: u64 = 5;
