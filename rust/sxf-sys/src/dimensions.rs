//! The numbers of a point that `sxf_coordinate_of` is asked for, in the order in which their elements stand.

/// X, from below upwards.
pub const NORTH: u32 = 0;
/// Y, from left to right.
pub const EAST: u32 = 1;
/// The height, in three dimensions.
pub const HEIGHT: u32 = 2;
