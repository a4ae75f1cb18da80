// SPDX-License-Identifier: MIT OR Apache-2.0
//! The entry on a chip without an operating system. Interrupts leave what they bring in a mailbox, and the main loop
//! leaves what is to be sent in another. They are placeholders for the registers and the interrupts of your chip.

use crate::board::ROWS;
use crate::chip::{Chip, Event};
use crate::{Board, run};
use core::sync::atomic::{AtomicU8, AtomicU16, Ordering};
use wuzhikar_device::{Change, Endpoint1, EpAnswer, PollAnswer};

/// A packet and what it is.
pub struct Mailbox {
    /// 0 where nothing waits. Written last.
    pub kind: AtomicU8,
    pub len: AtomicU8,
    pub bytes: [AtomicU8; 32],
}

impl Mailbox {
    const EMPTY: Mailbox =
        Mailbox { kind: AtomicU8::new(0), len: AtomicU8::new(0), bytes: [const { AtomicU8::new(0) }; 32] };

    /// What waits, and empties the mailbox.
    fn take(&self) -> (u8, [u8; 8], usize) {
        let kind = self.kind.load(Ordering::Acquire);
        let bytes = core::array::from_fn(|i| self.bytes[i].load(Ordering::Relaxed));
        let len = self.len.load(Ordering::Relaxed);
        self.kind.store(0, Ordering::Release);
        (kind, bytes, usize::from(len))
    }

    fn put(&self, kind: u8, bytes: &[u8]) {
        for (place, byte) in self.bytes.iter().zip(bytes) {
            place.store(*byte, Ordering::Relaxed);
        }
        self.len.store(bytes.len() as u8, Ordering::Relaxed);
        self.kind.store(kind, Ordering::Release);
    }
}

/// The placeholder for your chip. Its name is exported: else the compiler takes it for zeros, since nobody writes it, and leaves out
/// the code that reads it.
pub struct Stand {
    /// What the interrupts bring: 1 a scan, 2 SETUP, 3 OUT, 4 IN, 5 a poll of endpoint 1, 6 a bus reset.
    pub event: Mailbox,
    /// The rows of the matrix.
    pub matrix: [AtomicU16; ROWS],
    /// What the endpoints send: 1 a packet, 2 ACK, 3 NAK, 4 STALL.
    pub endpoint_0: Mailbox,
    pub endpoint_1: Mailbox,
    /// The register of the device's address. A controller takes it once the packet in `endpoint_0` is acknowledged.
    pub address: AtomicU8,
    /// What endpoint 1 is: 0 off, 1 ready from DATA0 on, 2 halted.
    pub endpoint_1_state: AtomicU8,
    /// The pins of the LEDs.
    pub leds: AtomicU8,
}

#[unsafe(no_mangle)]
#[allow(unsafe_code)]
pub static STAND: Stand = Stand {
    event: Mailbox::EMPTY,
    matrix: [const { AtomicU16::new(0) }; ROWS],
    endpoint_0: Mailbox::EMPTY,
    endpoint_1: Mailbox::EMPTY,
    address: AtomicU8::new(0),
    endpoint_1_state: AtomicU8::new(0),
    leds: AtomicU8::new(0),
};

struct Generic;

impl Chip for Generic {
    fn event(&mut self) -> Event {
        match STAND.event.take() {
            (1, ..) => Event::Millisecond(core::array::from_fn(|row| STAND.matrix[row].load(Ordering::Relaxed))),
            (2, packet, _) => Event::Setup(packet),
            (3, packet, len) => Event::Out(packet, len),
            (4, ..) => Event::In,
            (5, ..) => Event::Poll,
            (6, ..) => Event::Reset,
            _ => Event::Nothing,
        }
    }

    fn answer(&mut self, answer: &EpAnswer) {
        match answer {
            EpAnswer::Packet(packet) => STAND.endpoint_0.put(1, packet),
            EpAnswer::Ack => STAND.endpoint_0.put(2, &[]),
            EpAnswer::Nak => STAND.endpoint_0.put(3, &[]),
            EpAnswer::Stall => STAND.endpoint_0.put(4, &[]),
        }
    }

    fn report(&mut self, answer: &PollAnswer) {
        match answer {
            PollAnswer::Data(packet) => STAND.endpoint_1.put(1, packet),
            PollAnswer::Nak => STAND.endpoint_1.put(3, &[]),
            PollAnswer::Stall => STAND.endpoint_1.put(4, &[]),
            PollAnswer::Nothing => {}
        }
    }

    fn change(&mut self, change: Change) {
        match change {
            Change::Address(address) => STAND.address.store(address, Ordering::Relaxed),
            Change::Endpoint(state) => STAND.endpoint_1_state.store(state as u8, Ordering::Relaxed),
            Change::Wakeup(_) => {}
        }
    }

    fn reset(&mut self) {
        STAND.address.store(0, Ordering::Relaxed);
        STAND.endpoint_1_state.store(Endpoint1::Off as u8, Ordering::Relaxed);
    }

    /// A controller would take the next IN token again.
    fn arm(&mut self) {
        STAND.endpoint_0.put(0, &[]);
    }

    fn leds(&mut self, bits: u8) {
        STAND.leds.store(bits, Ordering::Relaxed);
    }
}

/// The board, where it stays.
static mut BOARD: Board = Board::NEW;

/// What the chip's start-up code calls, once.
#[unsafe(no_mangle)]
#[allow(unsafe_code)]
pub extern "C" fn main() -> ! {
    // SAFETY: it runs once, and nothing else names the board.
    let board = unsafe { &mut *(&raw mut BOARD) };
    board.erase();
    loop {
        run(&mut Generic, board);
    }
}

/// A panic stops the keyboard, for the watchdog to start it again.
#[panic_handler]
fn panic(_info: &core::panic::PanicInfo) -> ! {
    loop {
        core::hint::spin_loop();
    }
}
