// SPDX-License-Identifier: MIT OR Apache-2.0
//! The serial flash beside the chip, by the calls of the chip's ROM. While it works it can't be read, so [`operate`] and what it
//! calls lie in RAM, as does the USB interrupt, which goes on meanwhile.

use core::convert::Infallible;
use wuzhikar_log::{FlashDriver, MarkedUnits, SteadyFlash};

/// The bytes of the flash, and the log's pages at its end: `rp2040.ld` leaves them out. A serial flash may program to 0 before it
/// erases, and cells of a torn operation waver: so there are a page more, and as many sectors of marks ([`MarkedUnits`]).
pub const END: u32 = 2 * 1024 * 1024;
pub const PAGES: usize = 2;
pub const START: u32 = END - 2 * SECTOR * (PAGES as u32 + 1);

/// What is erased at once, and what is programmed at once.
pub const SECTOR: u32 = 4096;
pub const PAGE: u32 = 256;

/// The calls of the ROM, or what plays them.
pub trait Calls {
    /// connect_internal_flash, flash_exit_xip, flash_flush_cache; flash_range_erase of one sector, flash_range_program of one page.
    fn connect(&self);
    fn leave(&self);
    fn erase(&self, offset: u32);
    fn program(&self, offset: u32, page: &[u8; PAGE as usize]);
    fn flush(&self);
    /// Maps the flash again, as the boot stage does.
    fn map(&self);
    /// A word of the mapped flash, past the cache.
    fn word(&self, offset: u32) -> u32;
    /// Resets the chip.
    fn reset(&self);
}

/// An operation, whose page lies in RAM. Nothing of the flash is touched until it is mapped again.
#[cfg_attr(target_os = "none", unsafe(link_section = ".ram"))]
#[inline(never)]
fn operate<C: Calls>(calls: &C, offset: u32, page: Option<&[u8; PAGE as usize]>) {
    calls.connect();
    calls.leave();
    match page {
        Some(page) => calls.program(offset, page),
        None => calls.erase(offset),
    }
    calls.flush();
    calls.map();
}

/// The driver.
pub struct Flash<C>(pub C);

/// Returns the log's pages: blank ones, or those that an earlier start left. Other data are taken for a plain log. `None` if
/// the flash is damaged.
pub fn pages<C: Calls>(calls: C) -> Option<SteadyFlash<MarkedUnits<Flash<C>>>> {
    SteadyFlash::take_over(MarkedUnits::new(Flash(calls), START, PAGES).ok()?).ok()
}

impl<C: Calls> FlashDriver for Flash<C> {
    type Error = Infallible;
    const READ_SIZE: usize = 4;
    const WRITE_SIZE: usize = 1;
    const ERASE_SIZE: usize = SECTOR as usize;

    fn capacity(&self) -> usize {
        END as usize
    }

    fn read(&mut self, offset: u32, bytes: &mut [u8]) -> Result<(), Infallible> {
        for (at, word) in (offset..).step_by(4).zip(bytes.chunks_exact_mut(4)) {
            word.copy_from_slice(&self.0.word(at).to_le_bytes());
        }
        Ok(())
    }

    /// Writes whole pages of the flash: the rest of each is FFh, which programs nothing.
    fn write(&mut self, offset: u32, bytes: &[u8]) -> Result<(), Infallible> {
        let (mut at, mut left) = (offset, bytes);
        while !left.is_empty() {
            let within = (at % PAGE) as usize;
            let (now, rest) = left.split_at(left.len().min(PAGE as usize - within));
            let mut page = [0xff; PAGE as usize];
            page[within..within + now.len()].copy_from_slice(now);
            operate(&self.0, at - at % PAGE, Some(&page));
            (at, left) = (at + now.len() as u32, rest);
        }
        Ok(())
    }

    fn erase(&mut self, from: u32, to: u32) -> Result<(), Infallible> {
        (from..to).step_by(SECTOR as usize).for_each(|at| operate(&self.0, at, None));
        Ok(())
    }

    fn give_up(&mut self) {
        self.0.reset();
    }
}
