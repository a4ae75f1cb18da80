// SPDX-License-Identifier: MIT OR Apache-2.0
//! The driver of the chip's flash: the four functions that the keyboard asks for.

use wuzhikar::{FlashFault, NorFlash, PAGE_BYTES, SLOT_BYTES};

/// What the chip's flash controller does. Addresses are bytes from the start of the keymap's pages, which nobody else
/// writes. Put the registers of your chip behind it.
pub trait FlashController {
    /// How many pages of 4,096 bytes the keymap has, 2 to 8, the same at each call.
    const PAGES: usize;

    /// The byte that the cells hold.
    fn read(&self, address: usize) -> u8;

    /// Clears the bits of eight bytes that are clear in `bytes`, and touches no other byte. Answers whether the
    /// controller reported no fault. The eight bytes read as FFh: erased, and since then at most programmed by a torn call
    /// that left every bit set.
    fn program(&mut self, address: usize, bytes: [u8; SLOT_BYTES]) -> bool;

    /// Sets every bit of the 4,096 bytes from here on, and answers whether the controller reported no fault.
    fn erase(&mut self, address: usize) -> bool;
}

/// A controller that lies elsewhere, as in a `static`.
impl<C: FlashController> FlashController for &mut C {
    const PAGES: usize = C::PAGES;

    fn read(&self, address: usize) -> u8 {
        (**self).read(address)
    }

    fn program(&mut self, address: usize, bytes: [u8; SLOT_BYTES]) -> bool {
        (**self).program(address, bytes)
    }

    fn erase(&mut self, address: usize) -> bool {
        (**self).erase(address)
    }
}

/// The keymap's pages.
pub struct Flash<C> {
    controller: C,
}

impl<C: FlashController> Flash<C> {
    pub fn new(controller: C) -> Flash<C> {
        Flash { controller }
    }
}

impl<C: FlashController> NorFlash for Flash<C> {
    fn pages(&self) -> usize {
        C::PAGES
    }

    fn read_slot(&self, page: usize, slot: usize) -> [u8; SLOT_BYTES] {
        core::array::from_fn(|i| self.controller.read(PAGE_BYTES * page + SLOT_BYTES * slot + i))
    }

    fn program_slot(&mut self, page: usize, slot: usize, bytes: [u8; SLOT_BYTES]) -> Result<(), FlashFault> {
        ended(self.controller.program(PAGE_BYTES * page + SLOT_BYTES * slot, bytes))
    }

    fn erase_page(&mut self, page: usize) -> Result<(), FlashFault> {
        ended(self.controller.erase(PAGE_BYTES * page))
    }
}

fn ended(well: bool) -> Result<(), FlashFault> {
    if well { Ok(()) } else { Err(FlashFault) }
}
