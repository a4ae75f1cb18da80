// Exported from crates/page_turnover/src/attempt.rt by bin/export-rust. Edit that file instead.
//! One flash operation, and whether it took effect.

use crate::parts::page_turnover::reading::is_blank;
use crate::parts::flash_model::NorFlash;
use crate::parts::records::{Slot, classify, encode};

/// Programs a word into a slot. After a fault the slot is read back; the answer is whether it holds the word.
pub fn program<F: NorFlash>(flash: &mut F, page: u8, slot: u16, word: u32) -> bool {
    let _pages = flash.pages();
    let (page, slot) = (page as usize, slot as usize);
    match flash.program_slot(page, slot, encode(word)) {
        Ok(()) => true,
        Err(_) => holds(flash, page, slot, word),
    }
}

/// Erases a page. After a fault the page is read back; the answer is whether it is blank.
pub fn erase<F: NorFlash>(flash: &mut F, page: u8) -> bool {
    let _pages = flash.pages();
    match flash.erase_page(page as usize) {
        Ok(()) => true,
        Err(_) => is_blank(flash, page as usize),
    }
}

/// Whether a slot is Good with this word.
fn holds<F: NorFlash>(flash: &F, page: usize, slot: usize, word: u32) -> bool {
    match classify(flash.read_slot(page, slot)) {
        Slot::Good(read) => read == word,
        Slot::Free | Slot::Spoiled => false,
    }
}
