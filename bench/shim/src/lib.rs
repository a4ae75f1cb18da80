//! The exported keyboard behind `reference/peer/keyboard.h`, on the flash of `reference/peer/flash.h`: one bench calls it and the peer.
//!
//! Calls come one after another, and `kb_start` comes first, as the header says.
#![no_std]

mod flash;

use core::ptr::addr_of_mut;
use flash::Flash;
use wuzhikar::{EpAnswer, InAnswer, KeyNo, Keyboard, LayerNo, Scan, UnstartedKeyboard, Work};

#[unsafe(no_mangle)]
static mut KEYBOARD: UnstartedKeyboard = UnstartedKeyboard::NEW;

fn keyboard() -> &'static mut Keyboard {
    // SAFETY: `kb_start` started it, it is transparent, and no other call is running.
    unsafe { &mut *addr_of_mut!(KEYBOARD).cast() }
}

/// An answer as a number of the header: of a packet its length.
fn number(answer: &EpAnswer) -> i32 {
    match answer {
        EpAnswer::Ack => 0,
        EpAnswer::Nak => -1,
        EpAnswer::Stall(why) => -100 - i32::from(why.number()),
        EpAnswer::Packet(packet) => packet.len() as i32,
    }
}

#[unsafe(no_mangle)]
extern "C" fn kb_start() {
    // SAFETY: no other call is running.
    let started = unsafe { (*addr_of_mut!(KEYBOARD)).start(&Flash) };
    debug_assert!(started.is_ok());
}

#[unsafe(no_mangle)]
extern "C" fn kb_restart() {
    keyboard().restart(&Flash);
}

#[unsafe(no_mangle)]
extern "C" fn kb_scan(rows: &[u16; 6]) {
    keyboard().scan(Scan { rows: *rows });
}

#[unsafe(no_mangle)]
extern "C" fn kb_setup(packet: &[u8; 8]) {
    keyboard().setup_at(packet);
}

/// # Safety
/// `packet` points to `n` bytes.
#[unsafe(no_mangle)]
unsafe extern "C" fn kb_out(packet: *const u8, n: u32) -> i32 {
    let packet = unsafe { core::slice::from_raw_parts(packet, n as usize) };
    number(&keyboard().out(packet))
}

/// # Safety
/// `packet` has room for 8 bytes.
#[unsafe(no_mangle)]
unsafe extern "C" fn kb_in(packet: *mut u8) -> i32 {
    match keyboard().in_packet_into(unsafe { &mut *packet.cast() }) {
        InAnswer::Nak => -1,
        InAnswer::Stall(why) => -100 - i32::from(why.number()),
        InAnswer::Packet(length) => i32::from(length),
    }
}

/// # Safety
/// `report` has room for 23 bytes.
#[unsafe(no_mangle)]
unsafe extern "C" fn kb_poll(report: *mut u8) -> u32 {
    keyboard().poll_into(unsafe { &mut *report.cast() }).map_or(0, u32::from)
}

#[unsafe(no_mangle)]
extern "C" fn kb_work() -> i32 {
    match keyboard().work(&mut Flash) {
        Work::Idle => 0,
        Work::Working => 1,
        Work::Settled => 2,
        Work::Failed => 3,
    }
}

#[unsafe(no_mangle)]
extern "C" fn kb_bus_reset() {
    keyboard().bus_reset();
}

#[unsafe(no_mangle)]
extern "C" fn kb_leds() -> u32 {
    u32::from(keyboard().leds())
}

#[unsafe(no_mangle)]
extern "C" fn kb_entry(layer: u32, key: u32) -> u32 {
    match (LayerNo::read(layer as u8), KeyNo::read(key as u8)) {
        (Ok(layer), Ok(key)) => u32::from(keyboard().keymap().get(layer, key).bits()),
        _ => 0,
    }
}

#[panic_handler]
fn panic(_info: &core::panic::PanicInfo) -> ! {
    loop {}
}
