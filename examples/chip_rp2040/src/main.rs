// SPDX-License-Identifier: MIT OR Apache-2.0
//! A keyboard as the whole firmware of an RP2040 with 2 MB of flash, to be copied: `README.md` says how. **Not tried on a chip.**
//! Addresses, bits and errata are from memory of the manual of RP2040 (chapters 2 and 4) and of its SDK: compare them with yours.
#![cfg_attr(target_os = "none", no_std, no_main)]
#![cfg_attr(not(any(test, target_os = "none")), allow(dead_code))]

mod board;
mod boot;
mod flash;
#[path = "../../../rust/wuzhikar-device/examples/rp2040_usb.rs"]
mod rp2040_usb;

#[cfg(target_os = "none")]
mod chip;
#[cfg(test)]
mod tests;

/// The firmware. Called by the start-up, once.
#[cfg(target_os = "none")]
#[unsafe(no_mangle)]
extern "C" fn run() -> ! {
    use board::{PRODUCT, SWITCHES};
    use wuzhikar_device::{DeviceLayer, Keys, UsbDevice};

    chip::start_clocks();
    // SAFETY: it runs once, and nothing else names the memory.
    let memory = unsafe { &mut *(&raw mut chip::MEMORY) };
    let Some(flash) = flash::pages(chip::Rom::find()) else { chip::stop() };
    // The flash has 2 pages, so that none is refused.
    let Ok(keys) = Keys::start_in(memory, flash) else { chip::stop() };
    let mut pins = chip::Pins::start();
    let rp2040 = rp2040_usb::chip::start();
    let usb = rp2040_usb::Rp2040Usb(&rp2040);
    let layer = DeviceLayer::new(PRODUCT.descriptors());
    let mut device = UsbDevice::new(layer, keys, usb, PRODUCT.identity().packet_size);
    let mut clock = chip::Clock::start();
    chip::take_interrupts();
    loop {
        usb.serve(&mut device);
        if clock.millisecond() {
            let closed = board::scan(&mut pins);
            device.scan_rows(SWITCHES.scan(|row, column| closed[row] >> column & 1 != 0).rows);
        }
        // At most one operation of the flash.
        device.work();
        // Caps Lock.
        pins.lamp(device.behind().leds() & 2 != 0);
    }
}

#[cfg(not(target_os = "none"))]
fn main() {
    println!("This is a firmware: cargo build --release --target thumbv6m-none-eabi");
}
