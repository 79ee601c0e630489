//! Random numbers from a seed, and numbers at the ends of a range.

/// SplitMix64: small, and the same everywhere.
pub struct Random(u64);

/// What the state grows by with each number.
const STEP: u64 = 0x9e37_79b9_7f4a_7c15;

/// Another number for each number, with nothing left of their order.
fn mixed(mut z: u64) -> u64 {
    z = (z ^ (z >> 30)).wrapping_mul(0xbf58_476d_1ce4_e5b9);
    z = (z ^ (z >> 27)).wrapping_mul(0x94d0_49bb_1331_11eb);
    z ^ (z >> 31)
}

impl Random {
    /// The numbers of one case, whatever cases came before it. The cases begin far from each other: states that are some
    /// steps apart would give the same numbers, only earlier or later.
    pub fn of_case(seed: u64, case: u64) -> Random {
        Random(mixed(mixed(seed.wrapping_add(STEP)) ^ case))
    }

    pub fn number(&mut self) -> u64 {
        self.0 = self.0.wrapping_add(STEP);
        mixed(self.0)
    }

    /// A number from `low` to `high`, both in it.
    pub fn within(&mut self, low: u32, high: u32) -> u32 {
        let span = u64::from(high - low) + 1;
        low + (self.number() % span) as u32
    }

    pub fn one_in(&mut self, times: u32) -> bool {
        self.within(1, times) == 1
    }

    pub fn pick<T: Copy>(&mut self, from: &[T]) -> T {
        from[self.within(0, from.len() as u32 - 1) as usize]
    }

    /// A number at an end of a range, one past it, or anywhere.
    pub fn near(&mut self, low: u32, high: u32) -> u32 {
        let edges = edges(low, high);
        match self.within(0, edges.len() as u32 + 1) as usize {
            0 => self.number() as u32,
            1 => self.within(low, high),
            place => edges[place - 2],
        }
    }

    /// Bytes that a call is not to find by chance.
    pub fn noise(&mut self, length: usize) -> Vec<u8> {
        let mut bytes = Vec::with_capacity(length + 8);
        while bytes.len() < length {
            bytes.extend_from_slice(&self.number().to_le_bytes());
        }
        bytes.truncate(length);
        bytes
    }
}

/// The ends of a range, what lies one past them, and the ends of all numbers.
pub fn edges(low: u32, high: u32) -> [u32; 8] {
    [low.wrapping_sub(1), low, low + 1, high - 1, high, high + 1, 0, u32::MAX]
}
