// SPDX-License-Identifier: MIT OR Apache-2.0

//! The chip itself.

use super::{Registers, Rp2040, interrupt};
use core::arch::asm;
use core::ptr::{read_volatile, write_volatile};

/// The packet memory, and the registers behind it.
const USB: usize = 0x5010_0000;

/// TIMERAWL: microseconds, counted once the watchdog gives its tick.
const MICROSECONDS: *const u32 = 0x4005_4028 as *const u32;

/// RESET, where a one is written to be set, and to be cleared; RESET_DONE, and the controller's bit of each.
const RESET: *mut u32 = 0x4000_e000 as *mut u32;
const UNRESET: *mut u32 = 0x4000_f000 as *mut u32;
const RESET_DONE: *const u32 = 0x4000_c008 as *const u32;
const USBCTRL: u32 = 1 << 24;

/// CHIP_ID, from memory.
const CHIP_ID: *const u32 = 0x4000_0000 as *const u32;

/// NVIC_ISER, and the controller's interrupt, 5.
const ENABLE: *mut u32 = 0xe000_e100 as *mut u32;

/// The registers of the chip.
#[derive(Clone, Copy, Debug)]
pub struct Chip;

/// Resets the controller, whose clock of 48 MHz is on, and enables its interrupt. A reset of the processor alone leaves it on the
/// bus, with the address that it had.
pub fn start() -> Rp2040<Chip> {
    // SAFETY: registers that this controller alone has.
    unsafe {
        write_volatile(RESET, USBCTRL);
        write_volatile(UNRESET, USBCTRL);
        while read_volatile(RESET_DONE) & USBCTRL == 0 {}
    }
    let rp2040 = Rp2040::start(Chip);
    // SAFETY: as above.
    unsafe { write_volatile(ENABLE, 1 << 5) };
    rp2040
}

/// The handler, by the name that the crate `rp2040-pac` gives it. The linker script puts `.ram` into RAM.
#[unsafe(no_mangle)]
#[unsafe(link_section = ".ram")]
pub extern "C" fn USBCTRL_IRQ() {
    interrupt(&Chip);
}

impl Registers for Chip {
    #[inline(always)]
    fn read(&self, place: usize) -> u32 {
        // SAFETY: the driver asks for words of the controller alone, which are there once it is out of its reset.
        unsafe { read_volatile((USB + place) as *const u32) }
    }

    #[inline(always)]
    fn write(&self, place: usize, word: u32) {
        // SAFETY: as above.
        unsafe { write_volatile((USB + place) as *mut u32, word) }
    }

    #[inline(always)]
    fn write_byte(&self, place: usize, byte: u8) {
        // SAFETY: as above; the packet memory takes bytes.
        unsafe { write_volatile((USB + place) as *mut u8, byte) }
    }

    fn revision(&self) -> u32 {
        // SAFETY: a register that is read, of a block that is out of its reset.
        unsafe { read_volatile(CHIP_ID) >> 28 }
    }

    #[inline(always)]
    fn interrupts(&self, on: bool) {
        // SAFETY: the driver turns them on where they were on.
        unsafe { if on { asm!("cpsie i") } else { asm!("cpsid i") } }
    }

    #[inline(always)]
    fn pause(&self) {
        for _ in 0..12 {
            // SAFETY: it does nothing.
            unsafe { asm!("nop") }
        }
    }

    fn wait(&self, milliseconds: u32) {
        // SAFETY: a timer that is read.
        let now = || unsafe { read_volatile(MICROSECONDS) };
        let begun = now();
        while now().wrapping_sub(begun) < 1000 * milliseconds {}
    }
}
