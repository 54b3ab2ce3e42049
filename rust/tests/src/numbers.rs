//! Random numbers that are the same on every machine and in every run.

/// A stream of numbers, told by where it starts.
pub struct Numbers {
    state: u64,
}

/// Spreads each bit of a number over all of it.
pub fn mix(number: u64) -> u64 {
    let number = (number ^ (number >> 30)).wrapping_mul(0xBF58_476D_1CE4_E5B9);
    let number = (number ^ (number >> 27)).wrapping_mul(0x94D0_49BB_1331_11EB);
    number ^ (number >> 31)
}

impl Numbers {
    /// The stream of one case of one phase, under a seed.
    pub fn of_case(seed: u64, phase: u64, case: u64) -> Numbers {
        let state = mix(mix(mix(seed) ^ phase) ^ case);
        Numbers { state }
    }

    /// A number of 64 bits.
    pub fn any(&mut self) -> u64 {
        self.state = self.state.wrapping_add(0x9E37_79B9_7F4A_7C15);
        mix(self.state)
    }

    /// A number below `limit`, which is not 0.
    pub fn below(&mut self, limit: u64) -> u64 {
        ((u128::from(self.any()) * u128::from(limit)) >> 64) as u64
    }

    /// An index below `limit`, which is not 0.
    pub fn index(&mut self, limit: usize) -> usize {
        self.below(limit as u64) as usize
    }

    /// A number from `first` to `last`, both met.
    pub fn between(&mut self, first: u64, last: u64) -> u64 {
        first + self.below(last - first + 1)
    }

    /// True in `times` of `of` cases, in the long run.
    pub fn chance(&mut self, times: u64, of: u64) -> bool {
        self.below(of) < times
    }

    pub fn byte(&mut self) -> u8 {
        self.any() as u8
    }

    /// One of a list that is not empty.
    pub fn pick<T: Copy>(&mut self, list: &[T]) -> T {
        list[self.index(list.len())]
    }

    /// Mostly small: below `usual`, one time in ten up to `most`.
    pub fn mostly(&mut self, usual: u64, most: u64) -> u64 {
        if self.chance(9, 10) {
            self.below(usual)
        } else {
            self.between(0, most)
        }
    }

    /// So many bytes, which may be any.
    pub fn bytes(&mut self, length: usize) -> Vec<u8> {
        (0..length).map(|_| self.byte()).collect()
    }

    /// A number that fits so many bits: any, small, or at an edge.
    pub fn of_bits(&mut self, bits: u32) -> u64 {
        let most = u64::MAX >> (64 - bits);
        match self.below(8) {
            0 => 0,
            1 => most,
            2 => self.below(4).min(most),
            3 => 1 << self.below(u64::from(bits)),
            _ => self.any() & most,
        }
    }
}
