// Exported from crates/page_turnover/src/reading.rt by bin/export-rust. Edit that file instead.
//! What a mount reads of a flash.

use crate::parts::page_turnover::block::{BLOCK_SLOTS, PAGE_BLOCKS, is_free_block};
use crate::parts::page_turnover::header::{is_header, seq_of};
use crate::parts::flash_model::NorFlash;
use crate::parts::records::{Slot, classify, is_sound};

/// What the slots 0 of all pages say.
#[derive(Clone, Copy)]
pub struct Headers {
    /// The active page and the word of its header.
    pub active: Option<(usize, u32)>,
    /// The lowest page whose slot 0 is not sound.
    pub unsound: Option<usize>,
}

/// Reads slot 0 of each page.
pub fn read_headers<F: NorFlash>(flash: &F) -> Headers {
    let mut active = None;
    let mut unsound = None;
    for page in 0..flash.pages() {
        let header = flash.read_slot(page, 0);
        active = newer(active, page, classify(header));
        if unsound.is_none() && !is_sound(header) {
            unsound = Some(page);
        }
    }
    Headers { active, unsound }
}

/// The best page so far, or this one if it has a header with a greater sequence number.
fn newer(best: Option<(usize, u32)>, page: usize, slot: Slot) -> Option<(usize, u32)> {
    let Slot::Good(word) = slot else {
        return best;
    };
    if !is_header(word) {
        return best;
    }
    match best {
        Some((_, greatest)) if seq_of(greatest) >= seq_of(word) => best,
        _ => Some((page, word)),
    }
}

/// One more than the greatest slot of a page that is not Free, and 1 where slots 1 to 511 are Free.
pub fn tail<F: NorFlash>(flash: &F, page: usize) -> u16 {
    let mut block = PAGE_BLOCKS;
    while block > 1 && is_free_block(flash, page, block - 1) {
        block -= 1;
    }
    let mut tail = BLOCK_SLOTS * block;
    while tail > 1 && is_free(flash, page, tail - 1) {
        tail -= 1;
    }
    tail as u16
}

/// Whether a slot is Free.
pub fn is_free<F: NorFlash>(flash: &F, page: usize, slot: u32) -> bool {
    match classify(flash.read_slot(page, slot as usize)) {
        Slot::Free => true,
        Slot::Good(_) | Slot::Spoiled => false,
    }
}

/// Whether each slot of a page is Free.
pub fn is_blank<F: NorFlash>(flash: &F, page: usize) -> bool {
    for block in 0..PAGE_BLOCKS {
        if !is_free_block(flash, page, block) {
            return false;
        }
    }
    true
}
