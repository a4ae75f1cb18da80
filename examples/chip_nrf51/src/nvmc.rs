// SPDX-License-Identifier: MIT OR Apache-2.0
//! The flash controller of an nRF51 (nRF51 Series Reference Manual 3.0, chapter 6): words of 32 bits that a store programs, of
//! which it clears bits, and pages of 1,024 bytes. The processor stands still while the flash works.

use crate::registers::{read, write};
use core::convert::Infallible;
use wuzhikar::wuzhikar_log::FlashDriver;

const NVMC: usize = 0x4001_E000;
const READY: usize = NVMC + 0x400;
const CONFIG: usize = NVMC + 0x504;
const ERASE_PAGE: usize = NVMC + 0x508;
const WRITE: u32 = 1;
const ERASE: u32 = 2;

/// Where the flash ends.
pub const END: u32 = 256 * 1024;
const UNIT: u32 = 1024;

pub struct Nvmc;

impl Nvmc {
    fn wait() {
        while read(READY) & 1 == 0 {}
    }

    /// Sets the controller's mode, acts, and leaves the controller in the mode that it was in.
    fn in_mode(mode: u32, act: impl FnOnce()) {
        let before = read(CONFIG);
        write(CONFIG, mode);
        Nvmc::wait();
        act();
        Nvmc::wait();
        write(CONFIG, before);
        Nvmc::wait();
    }
}

impl FlashDriver for Nvmc {
    type Error = Infallible;
    const READ_SIZE: usize = 4;
    const WRITE_SIZE: usize = 4;
    const ERASE_SIZE: usize = UNIT as usize;

    fn capacity(&self) -> usize {
        END as usize
    }

    fn read(&mut self, offset: u32, bytes: &mut [u8]) -> Result<(), Infallible> {
        for (at, word) in (offset as usize..).step_by(4).zip(bytes.chunks_exact_mut(4)) {
            word.copy_from_slice(&read(at).to_le_bytes());
        }
        Ok(())
    }

    fn write(&mut self, offset: u32, bytes: &[u8]) -> Result<(), Infallible> {
        for (at, word) in (offset as usize..).step_by(4).zip(bytes.chunks_exact(4)) {
            let word = word.iter().rev().fold(0, |word, byte| word << 8 | u32::from(*byte));
            Nvmc::in_mode(WRITE, || write(at, word));
        }
        Ok(())
    }

    fn erase(&mut self, from: u32, to: u32) -> Result<(), Infallible> {
        for at in (from..to).step_by(UNIT as usize) {
            Nvmc::in_mode(ERASE, || write(ERASE_PAGE, at));
        }
        Ok(())
    }
}
