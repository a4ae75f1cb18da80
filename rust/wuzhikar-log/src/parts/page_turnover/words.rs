// Exported from crates/page_turnover/src/words.rt by bin/export-rust. Edit that file instead.
//! An iterator over the words of a page.

use crate::parts::page_turnover::block::{BLOCK_SLOTS, good_in_block};
use crate::parts::flash_model::NorFlash;
use crate::parts::records::Slot;

/// The Good words of a page that are left, in rising order of their slots.
#[derive(Debug)]
pub struct Words<'a, F: NorFlash> {
    flash: &'a F,
    page: usize,
    /// The next slot.
    next: u32,
    /// The slot behind the last one, at most 512.
    end: u32,
    /// Which slots of the next one's block are Good, from it on; at a block's first slot still to be
    /// read.
    good: u8,
}

impl<'a, F: NorFlash> Words<'a, F> {
    /// The words of the slots from 1 up to this one of a page.
    pub(crate) fn of_page(flash: &'a F, page: usize, end: u16) -> Words<'a, F> {
        let good = good_in_block(flash, page, 0) / 2;
        Words {
            flash,
            page,
            next: 1,
            end: end as u32,
            good,
        }
    }

    /// No words.
    pub(crate) fn none(flash: &'a F) -> Words<'a, F> {
        let _pages = flash.pages();
        Words {
            flash,
            page: 0,
            next: 0,
            end: 0,
            good: 0,
        }
    }
}

impl<'a, F: NorFlash> Iterator for Words<'a, F> {
    type Item = u32;

    #[inline(always)]
    fn next(&mut self) -> Option<u32> {
        let end = self.end;
        for slot in self.next..end {
            let good = good_from(self.flash, self.page, slot, self.good);
            self.next = slot + 1;
            self.good = good / 2;
            if good % 2 == 1 {
                return Some(word_at(self.flash, self.page, slot));
            }
        }
        None
    }
}

/// Which slots are Good from this one to the end of its block, which is read at its first slot.
fn good_from<F: NorFlash>(flash: &F, page: usize, slot: u32, good: u8) -> u8 {
    if slot % BLOCK_SLOTS == 0 {
        good_in_block(flash, page, slot / BLOCK_SLOTS)
    } else {
        good
    }
}

/// The word of a Good slot.
fn word_at<F: NorFlash>(flash: &F, page: usize, slot: u32) -> u32 {
    first_half(flash.read_slot(page, slot as usize))
}

/// The number in the first four bytes of a slot: its word where it is Good.
fn first_half(bytes: [u8; 8]) -> u32 {
    let [a, b, c, d, _, _, _, _] = bytes;
    u32::from_le_bytes([a, b, c, d])
}
