// SPDX-License-Identifier: MIT OR Apache-2.0
//! The exported keyboard behind a C ABI, for the test of a host driver. `bench.h` says what each call answers.
//!
//! `device` is the keyboard beside its flash. This file is the edge alone: it checks what C hands over, and refuses it before
//! the device sees it. **Safety** of each function that takes a bench: the bench is null, or `bench_new` returned it and
//! `bench_free` did not take it. No other call has it at the same time. A pointer that is not null leads to as many values as
//! its count says, and nobody else writes them during the call.
#![deny(unsafe_op_in_unsafe_fn)]
#![allow(clippy::missing_safety_doc)] // said once, above

mod device;

use core::ffi::c_int;
use device::Bench;
use wuzhikar::{Mask, PAGE_BYTES, Scan, Work};
use wuzhikar_device::{EpAnswer, NotDone, PollAnswer};

// The answers, as bench.h names them.
const ACK: c_int = 0;
const NAK: c_int = -1;
const REFUSED: c_int = -2;
const OFF: c_int = -3;
const STALL: c_int = -100;

/// The most bytes of a packet of endpoint 0, and of endpoint 1.
const PACKET: usize = 8;
const PACKET_1: usize = 64;

/// A device on so many erased pages, or null.
#[unsafe(no_mangle)]
pub extern "C" fn bench_new(pages: usize, packet: usize) -> *mut Bench {
    owned(Bench::new(pages, packet))
}

/// A device on the bytes of a flash, or null.
#[unsafe(no_mangle)]
pub unsafe extern "C" fn bench_on_image(image: *const u8, length: usize, packet: usize) -> *mut Bench {
    if image.is_null() || length > 8 * PAGE_BYTES {
        return core::ptr::null_mut();
    }
    // SAFETY: the caller owes `length` bytes behind the pointer, which is not null.
    owned(Bench::on_image(unsafe { core::slice::from_raw_parts(image, length) }, packet))
}

fn owned(bench: Option<Bench>) -> *mut Bench {
    bench.map_or(core::ptr::null_mut(), |bench| Box::into_raw(Box::new(bench)))
}

#[unsafe(no_mangle)]
pub unsafe extern "C" fn bench_free(bench: *mut Bench) {
    if !bench.is_null() {
        // SAFETY: it came from `Box::into_raw` in `owned`, and the caller gives it up.
        drop(unsafe { Box::from_raw(bench) });
    }
}

#[unsafe(no_mangle)]
pub unsafe extern "C" fn bench_setup(bench: *mut Bench, packet: *const u8, length: usize) -> c_int {
    // SAFETY: the caller owes both pointers.
    let (Some(bench), Some(packet)) = (unsafe { bench.as_mut() }, unsafe { values(packet, length) }) else {
        return REFUSED;
    };
    bench.setup(packet);
    ACK
}

#[unsafe(no_mangle)]
pub unsafe extern "C" fn bench_out(bench: *mut Bench, packet: *const u8, length: usize) -> c_int {
    if length > PACKET || packet.is_null() && length > 0 {
        return REFUSED;
    }
    // SAFETY: the caller owes the bench.
    let Some(bench) = (unsafe { bench.as_mut() }) else { return REFUSED };
    let mut bytes = [0; PACKET];
    if length > 0 {
        // SAFETY: the caller owes `length` bytes behind the pointer, which is not null, and `bytes` has room for 8.
        unsafe { core::ptr::copy_nonoverlapping(packet, bytes.as_mut_ptr(), length) };
    }
    // SAFETY: nothing is written where the answer has no packet; an OUT packet never gets one.
    unsafe { told(&bench.out(&bytes[..length]), bench, bytes.as_mut_ptr()) }
}

#[unsafe(no_mangle)]
pub unsafe extern "C" fn bench_in(bench: *mut Bench, buffer: *mut u8, room: usize) -> c_int {
    // SAFETY: the caller owes the bench.
    match unsafe { bench.as_mut() } {
        // SAFETY: a packet has at most 8 bytes, and the caller owes as much room.
        Some(bench) if !buffer.is_null() && room >= PACKET => unsafe { told(&bench.in_packet().0, bench, buffer) },
        _ => REFUSED,
    }
}

#[unsafe(no_mangle)]
pub unsafe extern "C" fn bench_poll(bench: *mut Bench, buffer: *mut u8, room: usize) -> c_int {
    // SAFETY: the caller owes the bench.
    match unsafe { bench.as_mut() } {
        Some(bench) if !buffer.is_null() && room >= PACKET_1 => match bench.poll() {
            // SAFETY: a packet has at most 64 bytes, and the caller owes as much room.
            PollAnswer::Data(packet) => unsafe { written(&packet, buffer) },
            PollAnswer::Nak => NAK,
            PollAnswer::Stall => STALL,
            PollAnswer::Nothing => OFF,
        },
        _ => REFUSED,
    }
}

#[unsafe(no_mangle)]
pub unsafe extern "C" fn bench_control(
    bench: *mut Bench,
    setup: *const u8,
    length: usize,
    data: *mut u8,
    room: usize,
) -> c_int {
    // SAFETY: the caller owes both pointers.
    let (Some(bench), Some(setup)) = (unsafe { bench.as_mut() }, unsafe { values::<u8, 8>(setup, length) }) else {
        return REFUSED;
    };
    let wanted = usize::from(u16::from_le_bytes([setup[6], setup[7]]));
    if room < wanted || data.is_null() && wanted > 0 {
        return REFUSED;
    }
    // SAFETY: the caller owes `room` bytes, which are at least as many, and which nobody else has meanwhile.
    let data = if wanted > 0 { unsafe { core::slice::from_raw_parts_mut(data, wanted) } } else { &mut [] };
    match bench.control(setup, data) {
        Ok(done) => done.length as c_int,
        Err(NotDone::Stall(why)) => STALL - c_int::from(why.number()),
        Err(NotDone::Waits | NotDone::Broken) => NAK,
        Err(NotDone::Buffer) => REFUSED,
    }
}

#[unsafe(no_mangle)]
pub unsafe extern "C" fn bench_scan(bench: *mut Bench, rows: *const u16, count: usize) -> c_int {
    // SAFETY: the caller owes both pointers.
    let (Some(bench), Some(rows)) = (unsafe { bench.as_mut() }, unsafe { values(rows, count) }) else {
        return REFUSED;
    };
    bench.scan(Scan { rows });
    ACK
}

#[unsafe(no_mangle)]
pub unsafe extern "C" fn bench_work(bench: *mut Bench) -> c_int {
    // SAFETY: the caller owes the bench.
    let Some(bench) = (unsafe { bench.as_mut() }) else { return REFUSED };
    number(bench.work())
}

#[unsafe(no_mangle)]
pub unsafe extern "C" fn bench_tear(bench: *mut Bench, mask: *const u8, length: usize) -> c_int {
    // SAFETY: the caller owes both pointers.
    let (Some(bench), Some(mask)) = (unsafe { bench.as_mut() }, unsafe { mask_of(mask, length) }) else {
        return REFUSED;
    };
    number(bench.tear(mask))
}

#[unsafe(no_mangle)]
pub unsafe extern "C" fn bench_cut_in_work(bench: *mut Bench, mask: *const u8, length: usize) -> c_int {
    // SAFETY: the caller owes both pointers.
    let (Some(bench), Some(mask)) = (unsafe { bench.as_mut() }, unsafe { mask_of(mask, length) }) else {
        return REFUSED;
    };
    bench.cut_in_work(mask);
    ACK
}

#[unsafe(no_mangle)]
pub unsafe extern "C" fn bench_image(bench: *const Bench, buffer: *mut u8, room: usize) -> c_int {
    // SAFETY: the caller owes the bench.
    match unsafe { bench.as_ref() } {
        Some(bench) if !buffer.is_null() && room >= bench.flash().image().len() => {
            // SAFETY: the caller owes as much room.
            unsafe { written(bench.flash().image(), buffer) }
        }
        _ => REFUSED,
    }
}

#[unsafe(no_mangle)]
pub unsafe extern "C" fn bench_leds(bench: *const Bench) -> c_int {
    // SAFETY: the caller owes the bench.
    unsafe { bench.as_ref() }.map_or(REFUSED, |bench| bench.leds().into())
}

#[unsafe(no_mangle)]
pub unsafe extern "C" fn bench_reset(bench: *mut Bench) -> c_int {
    // SAFETY: the caller owes the bench.
    let Some(bench) = (unsafe { bench.as_mut() }) else { return REFUSED };
    bench.bus_reset();
    ACK
}

#[unsafe(no_mangle)]
pub unsafe extern "C" fn bench_cut(bench: *mut Bench) -> c_int {
    // SAFETY: the caller owes the bench.
    let Some(bench) = (unsafe { bench.as_mut() }) else { return REFUSED };
    bench.restart();
    ACK
}

/// What a step of the flash work was.
fn number(work: Work) -> c_int {
    match work {
        Work::Idle => 0,
        Work::Working => 1,
        Work::Settled => 2,
        Work::Failed => 3,
    }
}

/// A mask. `None` where it is null and has bytes, or has more than a page.
unsafe fn mask_of(mask: *const u8, length: usize) -> Option<Mask> {
    match length {
        0 => Some(Mask::new()),
        _ if mask.is_null() || length > PAGE_BYTES => None,
        // SAFETY: the caller owes `length` bytes behind the pointer, which is not null.
        _ => Mask::try_from(unsafe { core::slice::from_raw_parts(mask, length) }).ok(),
    }
}

/// The `N` values behind a pointer. `None` where it is null, or `count` is another number.
unsafe fn values<T: Copy, const N: usize>(first: *const T, count: usize) -> Option<[T; N]> {
    if first.is_null() || count != N {
        return None;
    }
    // SAFETY: the caller owes `N` values there; an array of them has no padding. C may have them at any address.
    Some(unsafe { first.cast::<[T; N]>().read_unaligned() })
}

/// An answer of endpoint 0 as a number, with its packet in the buffer, which has room for 8 bytes.
unsafe fn told(answer: &EpAnswer, bench: &Bench, buffer: *mut u8) -> c_int {
    match answer {
        EpAnswer::Ack => ACK,
        EpAnswer::Nak => NAK,
        EpAnswer::Stall => STALL - c_int::from(bench.why().number()),
        // SAFETY: a packet has at most 8 bytes.
        EpAnswer::Packet(packet) => unsafe { written(packet, buffer) },
    }
}

/// Writes these bytes, for which the buffer has room, and answers how many.
unsafe fn written(bytes: &[u8], buffer: *mut u8) -> c_int {
    // SAFETY: the caller owes the room; the bytes are the device's own, which no buffer of C overlaps.
    unsafe { core::ptr::copy_nonoverlapping(bytes.as_ptr(), buffer, bytes.len()) };
    bytes.len() as c_int
}

#[cfg(test)]
mod tests;
