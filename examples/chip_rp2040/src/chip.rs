// SPDX-License-Identifier: MIT OR Apache-2.0
//! The chip: vectors, start-up, clocks, pins, and the calls of the ROM.

use crate::board::{COLUMNS, Codes, LAMP, Pads, ROWS};
use crate::boot::STAGE;
use crate::flash::{Calls, PAGE, SECTOR};
use core::mem::transmute;
use core::panic::PanicInfo;
use core::ptr::{read_volatile, write_volatile};
use wuzhikar::UnstartedKeyboardOf;

/// The keyboard, which starts in place.
pub static mut MEMORY: UnstartedKeyboardOf<Codes> = UnstartedKeyboardOf::NEW;

/// The offsets of a register's aliases: each bit that is written as 1 there is set, or cleared.
const SET: usize = 0x2000;
const CLEAR: usize = 0x3000;

const RESETS: usize = 0x4000_c000;
const RESET_DONE: usize = RESETS + 0x8;
const CLOCKS: usize = 0x4000_8000;
const XOSC: usize = 0x4002_4000;
const PLL_SYS: usize = 0x4002_8000;
const PLL_USB: usize = 0x4002_c000;
const TIMER: usize = 0x4005_4028;
const TICK: usize = 0x4005_802c;
const PIN_CONTROL: usize = 0x4001_4004;
const PADS: usize = 0x4001_c004;
const SIO: usize = 0xd000_0000;
const RESET_REQUEST: usize = 0xe000_ed0c;

/// Clears the enables of interrupts.
const NO_INTERRUPT: usize = 0xe000_e180;

// Bits of RESETS: the pins and their pads, both PLLs, SYSINFO and the timer, and USB's controller.
const PINS_RESET: u32 = 1 << 5 | 1 << 8;
const PLLS_RESET: u32 = 1 << 12 | 1 << 13;
const OTHERS_RESET: u32 = 1 << 19 | 1 << 21;
const USB_RESET: u32 = 1 << 24;

fn read(address: usize) -> u32 {
    // SAFETY: each caller names a register of 32 bits of the chip, or a word of the mapped flash.
    unsafe { read_volatile(address as *const u32) }
}

fn write(address: usize, value: u32) {
    // SAFETY: as above; each value is one that the manual lets be written.
    unsafe { write_volatile(address as *mut u32, value) }
}

fn wait(address: usize, bits: u32) {
    while read(address) & bits != bits {}
}

fn release(bits: u32) {
    write(RESETS + CLEAR, bits);
    wait(RESET_DONE, bits);
}

/// Starts the crystal of 12 MHz; then the processor has 125 MHz, USB 48 MHz, and the timer counts microseconds.
pub fn start_clocks() {
    // A reset of the processor leaves USB's controller on the bus, with its packets.
    write(RESETS + SET, USB_RESET);
    // XOSC: 1 to 15 MHz; 6 ms to start.
    write(XOSC, 0xaa0);
    write(XOSC + 0xc, 282);
    write(XOSC + SET, 0xfab << 12);
    wait(XOSC + 0x4, 1 << 31);
    // clk_sys leaves the PLLs, if it ran by one, and clk_ref takes the crystal.
    write(CLOCKS + 0x3c + CLEAR, 1);
    wait(CLOCKS + 0x44, 1);
    write(CLOCKS + 0x30, 2);
    wait(CLOCKS + 0x38, 1 << 2);
    write(RESETS + SET, PLLS_RESET);
    release(PINS_RESET | PLLS_RESET | OTHERS_RESET);
    // 1,500 MHz by 6 and 2, 1,200 MHz by 5 and 5.
    start_pll(PLL_SYS, 125, 6 << 16 | 2 << 12);
    start_pll(PLL_USB, 100, 5 << 16 | 5 << 12);
    // clk_sys: PLL_SYS, by the glitchless multiplexer. clk_usb: PLL_USB.
    write(CLOCKS + 0x3c, 0);
    write(CLOCKS + 0x3c + SET, 1);
    wait(CLOCKS + 0x44, 1 << 1);
    write(CLOCKS + 0x54, 1 << 11);
    // A tick each 12 cycles of clk_ref.
    write(TICK, 1 << 9 | 12);
}

fn start_pll(pll: usize, times: u32, dividers: u32) {
    write(pll, 1);
    write(pll + 0x8, times);
    // PD and VCOPD; once it is locked, POSTDIVPD.
    write(pll + 0x4 + CLEAR, 1 << 0 | 1 << 5);
    wait(pll, 1 << 31);
    write(pll + 0xc, dividers);
    write(pll + 0x4 + CLEAR, 1 << 3);
}

/// Whether a millisecond is over. What is missed, as in an erase, is not made up for.
pub struct Clock(u32);

impl Clock {
    pub fn start() -> Clock {
        Clock(read(TIMER))
    }

    pub fn millisecond(&mut self) -> bool {
        let now = read(TIMER);
        let since = now.wrapping_sub(self.0);
        let is_over = since >= 1000;
        if is_over {
            self.0 = now.wrapping_sub(since % 1000);
        }
        is_over
    }
}

pub struct Pins;

impl Pins {
    pub fn start() -> Pins {
        for pin in ROWS.into_iter().chain(COLUMNS).chain([LAMP]) {
            // Input and output, pulled up, with hysteresis; driven low where it is driven; by SIO.
            write(SIO + 0x28, 1 << pin);
            write(SIO + 0x18, 1 << pin);
            write(PADS + 4 * pin as usize, 1 << 6 | 1 << 4 | 1 << 3 | 1 << 1);
            write(PIN_CONTROL + 8 * pin as usize, 5);
        }
        write(SIO + 0x24, 1 << LAMP);
        Pins
    }

    pub fn lamp(&mut self, on: bool) {
        write(SIO + if on { 0x14 } else { 0x18 }, 1 << LAMP);
    }
}

impl Pads for Pins {
    fn pull_down(&mut self, pin: u32, down: bool) {
        write(SIO + if down { 0x24 } else { 0x28 }, 1 << pin);
    }

    fn levels(&mut self) -> u32 {
        // By pull-ups of 50 to 80 kOhm.
        let begun = read(TIMER);
        while read(TIMER).wrapping_sub(begun) < 30 {}
        read(SIO + 0x4)
    }
}

/// The boot stage in RAM.
#[unsafe(link_section = ".data.stage")]
static AGAIN: Stage = Stage(STAGE);

#[repr(align(4))]
struct Stage([u8; 256]);

/// The calls of the ROM that the flash needs, found in its table.
pub struct Rom {
    connect: extern "C" fn(),
    leave: extern "C" fn(),
    erase: extern "C" fn(u32, usize, u32, u8),
    program: extern "C" fn(u32, *const u8, usize),
    flush: extern "C" fn(),
    map: extern "C" fn(),
}

impl Rom {
    pub fn find() -> Rom {
        // SAFETY: the ROM has halfwords with the places of its table and of the function that searches it, and these calls.
        unsafe {
            let half = |place: usize| usize::from(read_volatile(place as *const u16));
            let search: extern "C" fn(*const u16, u32) -> usize = transmute(half(0x18));
            let find = |name: &[u8; 2]| search(half(0x14) as *const u16, u16::from_le_bytes(*name).into());
            Rom {
                connect: transmute::<usize, extern "C" fn()>(find(b"IF")),
                leave: transmute::<usize, extern "C" fn()>(find(b"EX")),
                erase: transmute::<usize, extern "C" fn(u32, usize, u32, u8)>(find(b"RE")),
                program: transmute::<usize, extern "C" fn(u32, *const u8, usize)>(find(b"RP")),
                flush: transmute::<usize, extern "C" fn()>(find(b"FC")),
                map: transmute::<usize, extern "C" fn()>(AGAIN.0.as_ptr() as usize | 1),
            }
        }
    }
}

impl Calls for Rom {
    #[inline(always)]
    fn connect(&self) {
        (self.connect)();
    }

    #[inline(always)]
    fn leave(&self) {
        (self.leave)();
    }

    #[inline(always)]
    fn erase(&self, offset: u32) {
        // By command 20h, since less than a block of command D8h is erased.
        (self.erase)(offset, SECTOR as usize, 1 << 16, 0xd8);
    }

    #[inline(always)]
    fn program(&self, offset: u32, page: &[u8; PAGE as usize]) {
        (self.program)(offset, page.as_ptr(), PAGE as usize);
    }

    #[inline(always)]
    fn flush(&self) {
        (self.flush)();
    }

    #[inline(always)]
    fn map(&self) {
        (self.map)();
    }

    fn word(&self, offset: u32) -> u32 {
        read(0x1300_0000 + offset as usize)
    }

    fn reset(&self) {
        stop()
    }
}

/// From here on the USB interrupt comes, the only one that is enabled.
pub fn take_interrupts() {
    // SAFETY: its handler and the vectors lie in RAM.
    unsafe { core::arch::asm!("cpsie i") }
}

/// Starts over, off the bus: what a panic does.
pub fn stop() -> ! {
    write(NO_INTERRUPT, u32::MAX);
    write(RESETS + SET, USB_RESET);
    write(RESET_REQUEST, 0x05fa_0004);
    loop {
        core::hint::spin_loop();
    }
}

#[panic_handler]
fn panic(_info: &PanicInfo) -> ! {
    stop()
}

// The vectors in flash, for the start; the start-up, which fills the RAM and takes the vectors there; and those, with USB's, 5.
core::arch::global_asm!(
    ".section .vectors, \"a\"",
    ".word stack_top, reset",
    ".section .ram_vectors, \"a\"",
    ".word 0, 0, fault, fault",
    ".rept 12",
    ".word fault",
    ".endr",
    ".word fault, fault, fault, fault, fault, USBCTRL_IRQ",
    ".rept 26",
    ".word fault",
    ".endr",
    ".section .ram.fault, \"ax\"",
    ".thumb_func",
    "fault: ldr r0, =0xe000ed0c",
    "ldr r1, =0x05fa0004",
    "str r1, [r0]",
    "b fault",
    ".pool",
    ".section .text.reset, \"ax\"",
    ".global reset",
    ".thumb_func",
    "reset: cpsid i",
    "ldr r0, =data_start",
    "ldr r1, =data_end",
    "ldr r2, =data_from",
    "1: cmp r0, r1",
    "bhs 2f",
    "ldm r2!, {{r3}}",
    "stm r0!, {{r3}}",
    "b 1b",
    "2: ldr r0, =bss_start",
    "ldr r1, =bss_end",
    "movs r2, #0",
    "3: cmp r0, r1",
    "bhs 4f",
    "stm r0!, {{r2}}",
    "b 3b",
    "4: ldr r0, =data_start",
    "ldr r1, =0xe000ed08",
    "str r0, [r1]",
    "bl run",
    ".pool",
);
