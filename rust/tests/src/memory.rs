//! Memory to lend: a slice between two guards, filled so that every write to
//! it is seen, wherever it falls.

use crate::numbers::mix;
use std::hint::black_box;

/// Cells before and after the lent slice.
const GUARD: usize = 16;

/// The most cells that are kept from one case to the next.
const KEPT: usize = 1 << 20;

/// What memory is made of.
pub trait Cell: Copy + Eq {
    /// What an untouched cell holds.
    fn untouched(index: usize, salt: u64) -> Self;
}

impl Cell for u64 {
    fn untouched(index: usize, salt: u64) -> u64 {
        (salt ^ index as u64).wrapping_mul(0x9E37_79B9_7F4A_7C15)
    }
}

impl Cell for u16 {
    fn untouched(index: usize, salt: u64) -> u16 {
        (u64::untouched(index, salt) >> 48) as u16
    }
}

impl Cell for u8 {
    fn untouched(index: usize, salt: u64) -> u8 {
        (u64::untouched(index, salt) >> 56) as u8
    }
}

/// Memory that is lent to one call after another.
pub struct Memory<T> {
    cells: Vec<T>,
    start: usize,
    length: usize,
    salt: u64,
}

impl<T: Cell> Memory<T> {
    pub fn new() -> Memory<T> {
        Memory { cells: Vec::new(), start: GUARD, length: 0, salt: 0 }
    }

    /// From here on, what is lent depends on the salt alone. Memory that was lent
    /// for a large sheet is not kept.
    pub fn reset(&mut self, salt: u64) {
        self.salt = salt;
        if self.cells.capacity() > KEPT {
            *self = Memory { salt, ..Memory::new() };
        }
    }

    /// A slice of this length, untouched, at one of eight alignments.
    pub fn lend(&mut self, length: usize) -> &mut [T] {
        self.salt = mix(self.salt ^ length as u64 ^ 1);
        self.start = GUARD + (self.salt & 7) as usize;
        self.length = length;
        self.cells.clear();
        let salt = self.salt;
        let all = self.start + length + GUARD;
        self.cells.extend((0..all).map(|index| T::untouched(index, salt)));
        &mut self.cells[self.start..self.start + length]
    }

    /// A slice with these contents, untouched around them.
    pub fn hold(&mut self, contents: &[T]) {
        self.lend(contents.len()).copy_from_slice(contents);
    }

    /// The lent slice.
    pub fn slice(&self) -> &[T] {
        &self.cells[self.start..self.start + self.length]
    }

    /// Whether the slice starts with what was written, and all the rest of
    /// this memory is as it was before. If not, the index in the slice of the
    /// first cell that differs, which is negative in the guard before it.
    pub fn holds(&self, written: &[T]) -> Result<(), i64> {
        // What was only lent to be read may have been written to as well.
        let cells = black_box(&self.cells[..]);
        let end = self.start + written.len();
        let is_untouched = |from: usize, cells: &[T]| {
            let differ = cells.iter().enumerate().filter(|&(index, &cell)| cell != T::untouched(from + index, self.salt));
            differ.count() == 0
        };
        let (before, lent) = cells.split_at(self.start);
        if is_untouched(0, before) && lent.starts_with(written) && is_untouched(end, &cells[end..]) {
            return Ok(());
        }
        let due = |index: usize| {
            if (self.start..end).contains(&index) {
                written[index - self.start]
            } else {
                T::untouched(index, self.salt)
            }
        };
        let first = (0..).find(|&index| cells.get(index) != Some(&due(index)));
        Err(first.unwrap_or(end) as i64 - self.start as i64)
    }
}

impl<T: Cell> Default for Memory<T> {
    fn default() -> Memory<T> {
        Memory::new()
    }
}

#[cfg(test)]
mod tests {
    use super::Memory;

    #[test]
    fn every_write_is_seen() {
        let mut memory = Memory::<u64>::new();
        let written = [1, 2, 3];
        memory.lend(5)[..3].copy_from_slice(&written);
        assert_eq!(memory.holds(&written), Ok(()));
        for index in 0..memory.cells.len() {
            memory.cells[index] ^= 1;
            let place = index as i64 - memory.start as i64;
            assert_eq!(memory.holds(&written), Err(place));
            memory.cells[index] ^= 1;
        }
    }

    #[test]
    fn a_missing_write_is_seen() {
        let mut memory = Memory::<u8>::new();
        memory.lend(5)[..2].copy_from_slice(&[1, 2]);
        assert!(memory.holds(&[1, 2, 3]).is_err());
        assert!(memory.holds(&[1]).is_err());
        assert!(memory.holds(&[]).is_err());
        assert_eq!(memory.holds(&[1, 2]), Ok(()));
    }

    #[test]
    fn nothing_is_lent_as_nothing() {
        let mut memory = Memory::<u8>::new();
        assert!(memory.lend(0).is_empty());
        assert_eq!(memory.holds(&[]), Ok(()));
    }
}
