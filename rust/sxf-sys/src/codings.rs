//! The codings of text, one byte a character, by the number that a sheet has at byte 97 for its labels.

/// DOS: code page 866.
pub const DOS: u32 = 0;
/// Windows: code page 1251, whose byte 0x98 has no character.
pub const WINDOWS: u32 = 1;
/// KOI-8: KOI8-R.
pub const KOI8: u32 = 2;
