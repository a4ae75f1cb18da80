// SPDX-License-Identifier: MIT OR Apache-2.0
//! The keyboard as the whole firmware of an nRF51822: its USB device layer and its log run as machine code on the chip's flash. What a bus and
//! a matrix do comes by the UART, one request at a time, each answered by one frame.
//!
//! | Request | Answer |
//! |---|---|
//! | `m` and six rows of two bytes: a scan | `k` |
//! | `s` and eight bytes: SETUP | `k` |
//! | `o`, a length, eight bytes: OUT | `A`, `N`, `S` |
//! | `i`: IN of endpoint 0 | `D`, `N`, `S` |
//! | `p`: IN of endpoint 1 | `D`, `N`, `S`, `k` where it is off |
//! | `r`: bus reset | `k` |
//! | `d`, a layer: what the keymap in RAM has there | `D`, 192 bytes |
//!
//! A frame is a letter, the LEDs, a change and its value (or the number of a stall), a length, and so many bytes. `B` comes at the
//! start, when the keymap was read; what the line still holds of the time before is passed over until 14 bytes 16h and one 17h, which
//! `k` answers. `!` is a panic.
#![no_std]
#![no_main]

#[cfg(feature = "buffers")]
mod buffers;
#[cfg(feature = "ecc")]
mod ecc;
mod frames;
mod nvmc;
#[cfg(not(any(feature = "ecc", feature = "steady")))]
mod plain;
mod registers;
#[cfg(feature = "steady")]
mod steady;
#[cfg(not(feature = "buffers"))]
mod token;
mod uart;

#[cfg(feature = "buffers")]
use buffers as main_loop;
use core::mem::MaybeUninit;
use core::panic::PanicInfo;
#[cfg(feature = "ecc")]
use ecc as pages;
use frames::Frame;
#[cfg(not(any(feature = "ecc", feature = "steady")))]
use plain as pages;
#[cfg(feature = "steady")]
use steady as pages;
#[cfg(not(feature = "buffers"))]
use token as main_loop;
use uart::Uart;
use wuzhikar::{KeyboardOf, Standard, UnstartedKeyboardOf};
#[cfg(not(feature = "buffers"))]
use wuzhikar_device::Device;
use wuzhikar_device::{Identity, Product, utf16};
#[cfg(feature = "buffers")]
use wuzhikar_device::{Keys, UsbDevice};

static PRODUCT: Product = Product::new(Identity {
    manufacturer: utf16!("Example"),
    product: utf16!("Wuzhikar keyboard"),
    serial_number: utf16!("nRF51"),
    ..Identity::TEST
});

/// The default codes; write a `Layout` of your own in their place.
type Codes = Standard;

#[cfg(not(feature = "buffers"))]
type Started = Device<'static, pages::Flash, &'static mut KeyboardOf<Codes>>;
#[cfg(feature = "buffers")]
type Started = UsbDevice<'static, Keys<pages::Flash, &'static mut KeyboardOf<Codes>>, buffers::Soft>;

static mut MEMORY: UnstartedKeyboardOf<Codes> = UnstartedKeyboardOf::NEW;

/// What has started.
static mut DEVICE: MaybeUninit<Started> = MaybeUninit::uninit();

/// Called by `reset`, once.
#[unsafe(no_mangle)]
extern "C" fn run() -> ! {
    let mut uart = Uart::start();
    let Some(device) = start() else { stopped() };
    Frame::of(b'B').send(&mut uart, 0);
    uart.begin();
    Frame::of(b'k').send(&mut uart, 0);
    main_loop::run(device, &mut uart)
}

/// The device in its place, or nothing where the flash can't be had. What a start takes of the stack is free behind it.
#[inline(never)]
fn start() -> Option<&'static mut Started> {
    // SAFETY: it runs once, and nothing else names the memory and the device.
    let (memory, device) = unsafe { (&mut *(&raw mut MEMORY), &mut *(&raw mut DEVICE)) };
    let flash = pages::flash()?;
    // The flash has 2 pages, so that none is refused.
    #[cfg(not(feature = "buffers"))]
    let started = Device::start_in(memory, flash, &PRODUCT).ok()?;
    #[cfg(feature = "buffers")]
    let started = buffers::device(Keys::start_in(memory, flash).ok()?);
    Some(device.write(started))
}

fn stopped() -> ! {
    loop {
        core::hint::spin_loop();
    }
}

/// A panic is told, and stops the keyboard; a watchdog would start it again.
#[panic_handler]
fn panic(_info: &PanicInfo) -> ! {
    Frame::of(b'!').send(&mut Uart, 0);
    stopped()
}

// The vector table and the start-up: what is in RAM begins as zeros, and no interrupt is ever taken.
core::arch::global_asm!(
    ".section .vectors, \"a\"",
    ".word stack_top, reset, hard_fault, hard_fault",
    ".word 0, 0, 0, 0",                // reserved by the core
    ".word bss_end, {log}, 0, hard_fault", // reserved: bin/board-test reads how deep the stack may go, and the bytes of the log
    ".word 0, 0, hard_fault, hard_fault",
    ".rept 32",
    ".word hard_fault",
    ".endr",
    ".section .text.reset, \"ax\"",
    ".global reset",
    ".thumb_func",
    "reset:",
    "cpsid i",
    "ldr r0, =bss_start",
    "ldr r1, =bss_end",
    "movs r2, #0",
    "1: cmp r0, r1",
    "bhs 2f",
    "stm r0!, {{r2}}",
    "b 1b",
    "2: bl run",
    ".thumb_func",
    "hard_fault: b hard_fault",
    ".pool",
    log = const pages::LOG,
);
