// SPDX-License-Identifier: MIT OR Apache-2.0
//! Numbers that look random, the same for the same seed (SplitMix64).

#[derive(Clone, Debug)]
pub struct Random(u64);

impl Random {
    pub fn from_seed(seed: u64) -> Random {
        Random(seed)
    }

    pub fn next(&mut self) -> u64 {
        self.0 = self.0.wrapping_add(0x9E37_79B9_7F4A_7C15);
        let mut mixed = self.0;
        mixed = (mixed ^ (mixed >> 30)).wrapping_mul(0xBF58_476D_1CE4_E5B9);
        mixed = (mixed ^ (mixed >> 27)).wrapping_mul(0x94D0_49BB_1331_11EB);
        mixed ^ (mixed >> 31)
    }

    /// A number below `bound`, which is not 0.
    pub fn below(&mut self, bound: usize) -> usize {
        (self.next() % bound as u64) as usize
    }

    /// Bits of which none, all, few, most or half are set, by a number below 8.
    pub fn mask_of(&mut self, kind: usize) -> u64 {
        match kind {
            0 => 0,
            1 => u64::MAX,
            2 | 3 => self.next() & self.next() & self.next() & self.next(),
            4 | 5 => self.next() | self.next() | self.next() | self.next(),
            _ => self.next(),
        }
    }
}
