// SPDX-License-Identifier: MIT OR Apache-2.0
//! Two pages in memory, which count the operations of the flash.
#![no_std]

use wuzhikar_log::{FlashFault, NorFlash, PAGE_SLOTS, SLOT_BYTES};

pub const PAGES: usize = 2;

/// The slots of all pages, each page after the one before.
pub type Slots = [[u8; SLOT_BYTES]; PAGES * PAGE_SLOTS];

pub struct Cells<'a> {
    pub slots: &'a mut Slots,
    pub programs: usize,
    pub erases: usize,
}

impl NorFlash for Cells<'_> {
    fn pages(&self) -> usize {
        PAGES
    }

    fn read_slot(&self, page: usize, slot: usize) -> [u8; SLOT_BYTES] {
        self.slots[PAGE_SLOTS * page + slot]
    }

    fn program_slot(&mut self, page: usize, slot: usize, bytes: [u8; SLOT_BYTES]) -> Result<(), FlashFault> {
        self.programs += 1;
        self.slots[PAGE_SLOTS * page + slot].iter_mut().zip(bytes).for_each(|(cell, byte)| *cell &= byte);
        Ok(())
    }

    fn erase_page(&mut self, page: usize) -> Result<(), FlashFault> {
        self.erases += 1;
        self.slots[PAGE_SLOTS * page..][..PAGE_SLOTS].fill([0xFF; SLOT_BYTES]);
        Ok(())
    }
}
