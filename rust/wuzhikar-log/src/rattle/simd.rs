//! The vectors of `std::simd` that the source uses, by words of 32 bits, which a chip has: Rust's own are in no released
//! version. Lanes are named one by one, since a loop over a few of them is left as a loop where a build is to be small.

use core::ops::{BitAnd, BitAndAssign, BitXor};

pub mod prelude {
    pub use super::{SimdEq, u8x16, u8x64, u32x8, u32x16};
}

/// 16 lanes of a byte each, four to a word: the first in its low bits.
#[allow(non_camel_case_types)]
#[derive(Clone, Copy, Debug, PartialEq, Eq)]
pub struct u8x16([u32; 4]);

/// 64 lanes of a byte each.
#[allow(non_camel_case_types)]
#[derive(Clone, Copy, Debug, PartialEq, Eq)]
pub struct u8x64([u8x16; 4]);

/// 8 lanes of a word each.
#[allow(non_camel_case_types)]
#[derive(Clone, Copy, Debug, PartialEq, Eq)]
pub struct u32x8([u32; 8]);

/// 16 lanes of a word each, by their bytes.
#[allow(non_camel_case_types)]
#[derive(Clone, Copy, Debug, PartialEq, Eq)]
pub struct u32x16(u8x64);

/// Which lanes are equal: bit `i` is that of lane `i`.
#[derive(Clone, Copy, Debug, PartialEq, Eq)]
pub struct Equal(u64);

impl Equal {
    #[inline(always)]
    pub fn to_bitmask(self) -> u64 {
        self.0
    }
}

/// Comparison lane by lane.
pub trait SimdEq {
    fn simd_eq(self, other: Self) -> Equal;
}

impl SimdEq for u32x8 {
    #[inline(always)]
    fn simd_eq(self, other: Self) -> Equal {
        let bit = |i: usize| u32::from(self.0[i] == other.0[i]) << i;
        Equal(u64::from(bit(0) | bit(1) | bit(2) | bit(3) | bit(4) | bit(5) | bit(6) | bit(7)))
    }
}

impl SimdEq for u8x16 {
    #[inline(always)]
    fn simd_eq(self, other: Self) -> Equal {
        let [a, b, c, d] = (self ^ other).0;
        if a | b | c | d == 0 {
            return Equal(0xffff);
        }
        let mut bits = 0u32;
        for (place, word) in [a, b, c, d].into_iter().enumerate() {
            for (i, byte) in word.to_le_bytes().into_iter().enumerate() {
                bits |= u32::from(byte == 0) << (4 * place + i);
            }
        }
        // A lane differs, so that this changes nothing; but it shows that no comparison with the mask of all lanes needs the loop.
        Equal(u64::from(bits.min(0xfffe)))
    }
}

/// The word in four bytes of a slice from a place on, the low byte first.
#[inline(always)]
fn word(bytes: &[u8], at: usize) -> u32 {
    u32::from_le_bytes([bytes[at], bytes[at + 1], bytes[at + 2], bytes[at + 3]])
}

impl u8x16 {
    /// The same number in each lane.
    #[inline(always)]
    pub fn splat(value: u8) -> u8x16 {
        u8x16([u32::from_le_bytes([value; 4]); 4])
    }

    /// The lanes in the bytes of a slice from a place on.
    #[inline(always)]
    fn at(bytes: &[u8], at: usize) -> u8x16 {
        u8x16([word(bytes, at), word(bytes, at + 4), word(bytes, at + 8), word(bytes, at + 12)])
    }
}

impl u8x64 {
    /// The same number in each lane.
    #[inline(always)]
    pub fn splat(value: u8) -> u8x64 {
        u8x64([u8x16::splat(value); 4])
    }

    /// The first lanes of a slice. Panics where it is too short.
    #[inline(always)]
    pub fn from_slice(slice: &[u8]) -> u8x64 {
        let bytes = &slice[..64];
        u8x64([u8x16::at(bytes, 0), u8x16::at(bytes, 16), u8x16::at(bytes, 32), u8x16::at(bytes, 48)])
    }

    #[inline(always)]
    pub fn from_array(lanes: [u8; 64]) -> u8x64 {
        u8x64::from_slice(&lanes)
    }

    /// The 16 lanes from `START` on, a multiple of 16.
    #[inline(always)]
    pub fn extract<const START: usize, const LEN: usize>(self) -> u8x16 {
        const { assert!(LEN == 16 && START % 16 == 0) };
        self.0[START / 16]
    }
}

impl u32x8 {
    /// The same number in each lane.
    #[inline(always)]
    pub fn splat(value: u32) -> u32x8 {
        u32x8([value; 8])
    }
}

impl u32x16 {
    /// The numbers of four bytes each, the low byte first.
    #[inline(always)]
    pub fn from_le_bytes(bytes: u8x64) -> u32x16 {
        u32x16(bytes)
    }

    /// The lanes with these numbers.
    #[inline(always)]
    pub fn swizzle(self, lanes: [usize; 8]) -> u32x8 {
        let lane = |i: usize| self.0.0[lanes[i] / 4].0[lanes[i] % 4];
        u32x8([lane(0), lane(1), lane(2), lane(3), lane(4), lane(5), lane(6), lane(7)])
    }
}

/// The operators, lane by lane.
macro_rules! operators {
    ($lanes:ident: $($i:literal)*) => {
        impl BitAnd for $lanes {
            type Output = $lanes;

            #[inline(always)]
            fn bitand(self, other: $lanes) -> $lanes {
                $lanes([$(self.0[$i] & other.0[$i]),*])
            }
        }

        impl BitXor for $lanes {
            type Output = $lanes;

            #[inline(always)]
            fn bitxor(self, other: $lanes) -> $lanes {
                $lanes([$(self.0[$i] ^ other.0[$i]),*])
            }
        }
    };
}

operators!(u8x16: 0 1 2 3);
operators!(u8x64: 0 1 2 3);
operators!(u32x8: 0 1 2 3 4 5 6 7);

impl BitAndAssign for u8x64 {
    #[inline(always)]
    fn bitand_assign(&mut self, other: u8x64) {
        *self = *self & other;
    }
}

#[cfg(test)]
mod tests {
    use super::prelude::*;

    /// Bytes that repeat only after 251.
    fn bytes(seed: usize) -> [u8; 64] {
        core::array::from_fn(|i| ((i + seed) * 7 % 251) as u8)
    }

    /// Each lane of 16 bytes alone, beside those that differ in it, and all that a bit mask of 16 can be.
    #[test]
    fn bytes_are_compared_lane_by_lane() {
        for mask in 0..=u16::MAX {
            let other: [u8; 64] = core::array::from_fn(|i| 0x5a ^ (u8::from(i < 16 && mask >> i & 1 == 0) << (i % 8)));
            let found = u8x64::from_array(other).extract::<0, 16>().simd_eq(u8x16::splat(0x5a));
            assert_eq!(found.to_bitmask(), u64::from(mask));
        }
    }

    /// Each quarter of 64 bytes is the one that its first lane names.
    #[test]
    fn a_part_starts_at_its_lane() {
        let all = u8x64::from_slice(&bytes(3));
        let parts = [all.extract::<0, 16>(), all.extract::<16, 16>(), all.extract::<32, 16>(), all.extract::<48, 16>()];
        for (part, chunk) in parts.into_iter().zip(bytes(3).chunks_exact(16)) {
            assert_eq!(part, u8x16::at(chunk, 0));
        }
    }

    /// Words are the little-endian numbers of the bytes, and are picked and compared lane by lane.
    #[test]
    fn words_are_four_bytes_each() {
        let words = u32x16::from_le_bytes(u8x64::from_array(bytes(0)));
        let picked: u32x8 = words.swizzle([15, 0, 2, 2, 4, 9, 1, 7]);
        for (lane, place) in [15, 0, 2, 2, 4, 9, 1, 7].into_iter().enumerate() {
            let four = &bytes(0)[4 * place..4 * place + 4];
            let same = picked.simd_eq(u32x8::splat(u32::from_le_bytes([four[0], four[1], four[2], four[3]])));
            assert!(same.to_bitmask() >> lane & 1 == 1 && same.to_bitmask() < 1 << 8);
        }
        assert_eq!(picked.simd_eq(u32x8::splat(0x0102_0304)).to_bitmask(), 0);
    }

    /// The operators on bytes and words are those of their bits.
    #[test]
    fn operators_are_bitwise() {
        let (a, b) = (bytes(1), bytes(90));
        let (x, y) = (u8x64::from_array(a), u8x64::from_array(b));
        assert_eq!(x & y, u8x64::from_array(core::array::from_fn(|i| a[i] & b[i])));
        assert_eq!(x ^ y, u8x64::from_array(core::array::from_fn(|i| a[i] ^ b[i])));
        let (part, other) = (x.extract::<16, 16>(), y.extract::<16, 16>());
        assert_eq!((part & other, part ^ other), ((x & y).extract::<16, 16>(), (x ^ y).extract::<16, 16>()));
        for lanes in [[0, 2, 4, 6, 8, 10, 12, 14], [1, 3, 5, 7, 9, 11, 13, 15]] {
            let words = |bytes: u8x64| u32x16::from_le_bytes(bytes).swizzle(lanes);
            assert_eq!((words(x) & words(y), words(x) ^ words(y)), (words(x & y), words(x ^ y)));
        }
    }
}
