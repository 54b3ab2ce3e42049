//! A code index: how long it is, and which of the three numbers of an entry or of a pick is which (02, requests 3 and 7).
//!
//! "Keep a file of 512-byte blocks: block number from 0 (2 bytes), entry count (2), 63 entries of 8 bytes (class code 4, record place 3,
//! localisation 1), two zero bytes, and the sum of the first 510 bytes modulo 65536." That was request 3; by request 7 "new blocks carry 56 entries of
//! 9 bytes with a 4-byte place, and their two bytes before the sum hold 1 and 0 in place of zeros. Old blocks stay readable, a file holds one kind
//! only, and new ones are always written in the new kind."

/// How many bytes a block has.
pub const BLOCK_SIZE: usize = 512;
/// How many entries a full block of the new kind has; all but the last are full.
pub const BLOCK_FULL: usize = 56;

/// How long the index of so many records is when it is built, for counts of records that a sheet can have, below 2^32.
pub const fn index_length(records: usize) -> usize {
    records.div_ceil(BLOCK_FULL) * BLOCK_SIZE
}

/// Index of an entry's class code, counted from the entry's first number.
pub const ENTRY_CODE: usize = 0;
/// Index of its record's place.
pub const ENTRY_PLACE: usize = 1;
/// Index of its localisation.
pub const ENTRY_LOCALISATION: usize = 2;
/// How many numbers an entry has.
pub const ENTRY_WIDTH: usize = 3;

/// Index of a pick's record number, counted from the pick's first number.
pub const PICK_RECORD: usize = 0;
/// Index of its record's place.
pub const PICK_PLACE: usize = 1;
/// Index of its localisation.
pub const PICK_LOCALISATION: usize = 2;
/// How many numbers a pick has.
pub const PICK_WIDTH: usize = 3;

#[cfg(test)]
mod tests {
    use super::*;

    #[test]
    fn a_block_is_begun_for_each_56_records() {
        let lengths = [0, 1, 55, 56, 57, 112, 113].map(index_length);
        assert_eq!(lengths, [0, 512, 512, 512, 1024, 1024, 1536]);
    }
}
