// Exported from crates/flash_model/src/masks.rt by bin/export-rust. Edit that file instead.
//! Operations that are torn by a mask.

use crate::parts::flash_model::{PAGE_BYTES, SLOT_BYTES};
use arrayvec::ArrayVec;

/// Which bits of an operation take effect: those that are set.
///
/// Byte `i` of the operation, 0 to 7 in a program and 0 to 4,095 in an erase, goes by byte
/// `i % len` of the mask; where the mask is empty, no bit takes effect.
pub type Mask = ArrayVec<u8, PAGE_BYTES>;

/// A program of a slot, as far as the mask lets it.
pub fn program(image: &mut [u8], page: usize, slot: usize, with: [u8; SLOT_BYTES], mask: &[u8]) {
    clear(image, PAGE_BYTES * page + SLOT_BYTES * slot, with, mask);
}

/// An erase of a page, as far as the mask lets it.
pub fn erase(image: &mut [u8], page: usize, mask: &[u8]) {
    set(image, PAGE_BYTES * page, mask);
}

/// Clears the bits of eight bytes that are clear in `with` and set in the mask.
fn clear(image: &mut [u8], at: usize, with: [u8; SLOT_BYTES], mask: &[u8]) {
    for k in 0..SLOT_BYTES {
        image[at + k] &= with[k] | !mask_at(mask, k);
    }
}

/// Sets the bits of the bytes of a page that are set in the mask.
fn set(image: &mut [u8], at: usize, mask: &[u8]) {
    for k in 0..PAGE_BYTES {
        image[at + k] |= mask_at(mask, k);
    }
}

/// What the mask says of byte `i` of an operation.
fn mask_at(mask: &[u8], i: usize) -> u8 {
    if mask.is_empty() {
        0
    } else {
        mask[i % mask.len()]
    }
}
