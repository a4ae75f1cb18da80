// SPDX-License-Identifier: MIT OR Apache-2.0
//! The smallest program of a chip that keeps settings, for its size: volatile words in the place of a controller's registers,
//! and a mailbox where an interrupt would ask.
#![no_std]
#![no_main]

use core::sync::atomic::{AtomicU8, AtomicU32, Ordering};

use wuzhikar_log::{FlashFault, FlashSettings, MAX_BYTES, NorFlash, PAGE_BYTES, SLOT_BYTES};

const FLASH: usize = 0x0800_8000;

/// The registers of the flash: an address, two words, and how it ended. Exported, so that the compiler takes them for read.
#[unsafe(no_mangle)]
pub static CONTROLLER: [AtomicU32; 4] = [const { AtomicU32::new(0) }; 4];

/// What is asked: 1 a value is stored, 2 it is read, 3 it is removed; and of which id.
#[unsafe(no_mangle)]
pub static ASKED: [AtomicU32; 2] = [const { AtomicU32::new(0) }; 2];

/// The bytes of a value, and how many there are.
#[unsafe(no_mangle)]
pub static BYTES: [AtomicU8; MAX_BYTES] = [const { AtomicU8::new(0) }; MAX_BYTES];
#[unsafe(no_mangle)]
pub static LENGTH: AtomicU32 = AtomicU32::new(0);

struct Chip;

impl Chip {
    fn operate(&self, at: usize, words: [u32; 2]) -> Result<(), FlashFault> {
        CONTROLLER[1].store(words[0], Ordering::Relaxed);
        CONTROLLER[2].store(words[1], Ordering::Relaxed);
        CONTROLLER[0].store(at as u32, Ordering::Release);
        if CONTROLLER[3].load(Ordering::Acquire) == 0 { Ok(()) } else { Err(FlashFault) }
    }
}

impl NorFlash for Chip {
    fn pages(&self) -> usize {
        2
    }

    fn read_slot(&self, page: usize, slot: usize) -> [u8; SLOT_BYTES] {
        let at = (FLASH + PAGE_BYTES * page + SLOT_BYTES * slot) as *const [u32; 2];
        // SAFETY: a slot of the flash, which is always mapped.
        let [low, high] = unsafe { at.read_volatile() }.map(u32::to_le_bytes);
        core::array::from_fn(|i| if i < 4 { low[i] } else { high[i - 4] })
    }

    #[inline(never)]
    fn program_slot(&mut self, page: usize, slot: usize, bytes: [u8; SLOT_BYTES]) -> Result<(), FlashFault> {
        let [a, b, c, d, e, f, g, h] = bytes;
        self.operate(PAGE_BYTES * page + SLOT_BYTES * slot, [[a, b, c, d], [e, f, g, h]].map(u32::from_le_bytes))
    }

    #[inline(never)]
    fn erase_page(&mut self, page: usize) -> Result<(), FlashFault> {
        self.operate(PAGE_BYTES * page, [0; 2])
    }
}

#[unsafe(no_mangle)]
pub extern "C" fn _start() -> ! {
    let Ok(mut settings) = FlashSettings::mount(Chip) else { stop() };
    loop {
        let id = ASKED[1].load(Ordering::Relaxed) as u16;
        let failed = match ASKED[0].load(Ordering::Acquire) {
            1 => {
                let bytes: [u8; MAX_BYTES] = core::array::from_fn(|i| BYTES[i].load(Ordering::Relaxed));
                let length = LENGTH.load(Ordering::Relaxed) as usize;
                settings.set(id, bytes.get(..length).unwrap_or(&bytes)).is_err()
            }
            2 => settings.get(id).is_none_or(|value| {
                LENGTH.store(value.as_bytes().len() as u32, Ordering::Relaxed);
                BYTES.iter().zip(value.as_bytes()).for_each(|(place, &byte)| place.store(byte, Ordering::Relaxed));
                false
            }),
            3 => settings.remove(id).is_err(),
            _ => continue,
        };
        ASKED[0].store(if failed { 4 } else { 0 }, Ordering::Release);
    }
}

fn stop() -> ! {
    loop {
        core::hint::spin_loop();
    }
}

#[panic_handler]
fn panic(_info: &core::panic::PanicInfo) -> ! {
    stop()
}
