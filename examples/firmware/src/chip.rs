// SPDX-License-Identifier: MIT OR Apache-2.0
//! A chip, and one that is played in memory: write your own in its place.

use crate::board::ROWS;
use crate::flash::FlashController;
use wuzhikar::SLOT_BYTES;
use wuzhikar_device::{Change, EpAnswer, Identity, PollAnswer, Product, utf16};

/// What the keyboard is called: put your own here. Vendor 1209h, product 0001h is an ID for tests and not for products.
/// Packets of 16 bytes, asked for each millisecond, are what a BIOS takes, too.
pub static PRODUCT: Product = Product::new(Identity {
    vendor_id: 0x1209,
    product_id: 0x0001,
    release: 0x0100,
    manufacturer: utf16!("Example"),
    product: utf16!("Wuzhikar keyboard"),
    serial_number: utf16!("0001"),
    ..Identity::TEST
});

/// What the chip's interrupts have left for the main loop.
#[cfg_attr(target_os = "none", allow(dead_code))] // nobody cuts the power in a program
pub enum Event {
    /// The timer of a millisecond, with the matrix as it was scanned: bit c of row r is set while the switch in row r and
    /// column c is closed.
    Millisecond([u16; ROWS]),
    /// A SETUP packet of endpoint 0.
    Setup([u8; 8]),
    /// An OUT packet of endpoint 0, of so many bytes.
    Out([u8; 8], usize),
    /// The host asks for a packet of endpoint 0.
    In,
    /// The host asks for a packet of endpoint 1.
    Poll,
    /// The host resets the bus.
    Reset,
    /// Nothing waits.
    Nothing,
    /// The power goes. Only a chip that is played says so.
    Cut,
}

/// What the main loop asks of a chip.
pub trait Chip {
    /// The next event.
    fn event(&mut self) -> Event;

    /// Puts an answer of endpoint 0 onto the bus.
    fn answer(&mut self, answer: &EpAnswer);

    /// Puts an answer of endpoint 1 onto the bus.
    fn report(&mut self, answer: &PollAnswer);

    /// Follows a change of the device: its address, or what endpoint 1 is.
    fn change(&mut self, change: Change);

    /// Follows a bus reset: address 0, and endpoint 1 off.
    fn reset(&mut self);

    /// Arms endpoint 0 again, which answered a NAK.
    fn arm(&mut self);

    /// Sets the LEDs.
    fn leds(&mut self, bits: u8);
}

/// Cells of two pages in memory.
pub struct Cells {
    bytes: [u8; Cells::BYTES],
}

impl Cells {
    const BYTES: usize = 2 * 4096;

    /// Cells that were never erased.
    pub const ZEROS: Cells = Cells { bytes: [0; Cells::BYTES] };
}

impl FlashController for Cells {
    const PAGES: usize = 2;

    fn read(&self, address: usize) -> u8 {
        self.bytes[address]
    }

    fn program(&mut self, address: usize, bytes: [u8; SLOT_BYTES]) -> bool {
        for (cell, byte) in self.bytes[address..].iter_mut().zip(bytes) {
            *cell &= byte;
        }
        true
    }

    fn erase(&mut self, address: usize) -> bool {
        self.bytes[address..address + 4096].fill(0xff);
        true
    }
}
