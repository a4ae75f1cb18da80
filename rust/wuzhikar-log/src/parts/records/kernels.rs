// Exported from crates/records/src/kernels.rt by bin/export-rust. Edit that file instead.
//! Many bytes at once: the kinds of eight slots, and whether bytes are all FFh.

use crate::rattle::simd::prelude::*;

/// Which of eight slots are Good, and which are Free: bit `i` is that of slot `i`.
#[derive(Clone, Copy, Debug, PartialEq, Eq)]
pub struct Kinds {
    /// The slots that hold a word and its complement.
    pub good: u8,
    /// The slots of eight bytes FFh.
    pub free: u8,
}

/// The kinds of eight slots that lie one after the other, as `classify` has them slot by slot.
#[inline]
pub fn kinds8(slots: &[u8; 64]) -> Kinds {
    let halves = halves_of(*slots);
    let words = halves.swizzle([0, 2, 4, 6, 8, 10, 12, 14]);
    let checks = halves.swizzle([1, 3, 5, 7, 9, 11, 13, 15]);
    Kinds {
        good: ones_of(words ^ checks),
        free: ones_of(words & checks),
    }
}

/// The words of the slots and their complements, in turn.
#[inline(always)]
fn halves_of(slots: [u8; 64]) -> u32x16 {
    u32x16::from_le_bytes(u8x64::from_array(slots))
}

/// Which lanes have every bit set: bit `i` is that of lane `i`.
#[inline(always)]
fn ones_of(lanes: u32x8) -> u8 {
    lanes.simd_eq(u32x8::splat(u32::MAX)).to_bitmask() as u8
}

/// Whether every byte is FFh, however many there are.
#[inline]
pub fn all_ones(bytes: &[u8]) -> bool {
    let mut all = u8x64::splat(u8::MAX);
    let mut i = 0;
    while bytes.len() - i >= 64 {
        all &= u8x64::from_slice(&bytes[i..]);
        i += 64;
    }
    if !is_ones(all) {
        return false;
    }
    while i < bytes.len() {
        if bytes[i] != u8::MAX {
            return false;
        }
        i += 1;
    }
    true
}

/// Whether every lane is FFh.
#[inline(always)]
fn is_ones(lanes: u8x64) -> bool {
    // One comparison of 16 lanes serves for all: it is fewer instructions than four.
    quarters(lanes).simd_eq(u8x16::splat(u8::MAX)).to_bitmask() == 0xffff
}

/// The AND of the four quarters.
#[inline(always)]
fn quarters(lanes: u8x64) -> u8x16 {
    let left = lanes.extract::<0, 16>() & lanes.extract::<16, 16>();
    let right = lanes.extract::<32, 16>() & lanes.extract::<48, 16>();
    left & right
}
