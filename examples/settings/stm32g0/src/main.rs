// SPDX-License-Identifier: MIT OR Apache-2.0
//! Settings in the flash of an STM32G0 (`thumbv6m-none-eabi`). A sketch: it is built, and was tried on no chip. A linker script,
//! start-up code and a vector table are the chip's own.
#![no_std]
#![no_main]

use core::arch::asm;
use core::sync::atomic::{AtomicBool, AtomicU32, Ordering};

use settings::Lamp;
use settings::stm32g0::{Chip, Register, Stm32G0, on_nmi};
use wuzhikar_log::{GeometryError, PairedFlash, UnitFlash};

/// The bytes of the flash, and where the settings begin: its last 16 KB, two pages of the log.
const BYTES: usize = 64 * 1024;
const START: u32 = 48 * 1024;
const PAGES: usize = 2;

/// Whether the NMI came of a double error since a read of the flash began.
static DOUBLE_ERROR: AtomicBool = AtomicBool::new(false);

/// A request that an interrupt has left: bit 31, and a channel in bits 7 to 0. Its name is kept: who sees no writer of a request
/// takes it for 0, and leaves out all that stores.
#[unsafe(no_mangle)]
pub static REQUEST: AtomicU32 = AtomicU32::new(0);

/// How the last request ended: 0 it is stored, 1 it is refused.
#[unsafe(no_mangle)]
pub static ANSWER: AtomicU32 = AtomicU32::new(0);

/// The registers and the flash of the chip.
struct G0;

impl G0 {
    const REGISTERS: usize = 0x4002_2000;
    const FLASH: usize = 0x0800_0000;
}

impl Chip for G0 {
    fn register(&self, register: Register) -> u32 {
        // SAFETY: a register of the flash, of 32 bits, at its address in RM0444.
        unsafe { ((Self::REGISTERS + register as usize) as *const u32).read_volatile() }
    }

    fn set_register(&mut self, register: Register, value: u32) {
        // SAFETY: as above; each value is one that RM0444 lets be written.
        unsafe { ((Self::REGISTERS + register as usize) as *mut u32).write_volatile(value) }
    }

    fn load(&mut self, offset: u32) -> u32 {
        // SAFETY: a word inside the flash, which is always mapped. The barriers let an NMI of this load come first.
        unsafe {
            let word = ((Self::FLASH + offset as usize) as *const u32).read_volatile();
            asm!("dsb", "isb", options(nostack, preserves_flags));
            word
        }
    }

    fn store(&mut self, offset: u32, word: u32) {
        // SAFETY: a word of the pages of the settings, where nothing else stands. The barrier parts the two of a double word.
        unsafe {
            ((Self::FLASH + offset as usize) as *mut u32).write_volatile(word);
            asm!("isb", options(nostack, preserves_flags));
        }
    }

    fn take_double_error(&mut self) -> bool {
        let was = DOUBLE_ERROR.load(Ordering::Relaxed);
        DOUBLE_ERROR.store(false, Ordering::Relaxed);
        was
    }
}

/// The handler of the NMI, under the name that `cortex-m-rt` has for it.
#[unsafe(no_mangle)]
pub extern "C" fn NonMaskableInt() {
    if on_nmi(&mut G0) {
        DOUBLE_ERROR.store(true, Ordering::Relaxed);
    }
}

/// The pages of the settings.
fn units() -> Result<UnitFlash<Stm32G0<G0, BYTES>>, GeometryError> {
    UnitFlash::new(Stm32G0::new(G0), START, PAGES)
}

/// Erases the pages: before the first start, and never after.
#[unsafe(no_mangle)]
pub extern "C" fn format() -> bool {
    units().is_ok_and(|units| PairedFlash::format(units).is_ok())
}

/// What the chip's start-up code calls.
#[unsafe(no_mangle)]
pub extern "C" fn main() -> ! {
    if let Ok(Ok(mut lamp)) = units().map(|units| Lamp::mount(PairedFlash::mount(units))) {
        loop {
            let request = REQUEST.load(Ordering::Acquire);
            if request >> 31 == 1 {
                let stored = lamp.set_channel(request as u8);
                ANSWER.store(u32::from(stored.is_err()), Ordering::Relaxed);
                REQUEST.store(0, Ordering::Release);
            }
        }
    }
    stopped()
}

fn stopped() -> ! {
    loop {
        core::hint::spin_loop();
    }
}

/// A panic stops the program, for the watchdog to start it again.
#[panic_handler]
fn panic(_info: &core::panic::PanicInfo) -> ! {
    stopped()
}
