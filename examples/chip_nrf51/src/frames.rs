// SPDX-License-Identifier: MIT OR Apache-2.0
//! What goes onto the line.

use crate::uart::Uart;
use wuzhikar::{Defaults, KeyNo, KeyboardOf, LayerNo, Scan};
use wuzhikar_device::Change;

/// An answer on its way.
pub struct Frame<'b> {
    kind: u8,
    change: [u8; 2],
    bytes: &'b [u8],
}

impl<'b> Frame<'b> {
    pub const fn of(kind: u8) -> Frame<'b> {
        Frame { kind, change: [0; 2], bytes: &[] }
    }

    pub const fn data(bytes: &'b [u8]) -> Frame<'b> {
        Frame { kind: b'D', change: [0; 2], bytes }
    }

    pub fn with(self, change: Option<Change>) -> Frame<'b> {
        let change = match change {
            None | Some(Change::Wakeup(_)) => self.change,
            Some(Change::Address(address)) => [2, address],
            Some(Change::Endpoint(state)) => [3, state as u8],
        };
        Frame { change, ..self }
    }

    /// That the bus was reset.
    pub const fn reset(self) -> Frame<'b> {
        Frame { change: [1, 0], ..self }
    }

    #[cfg(not(feature = "buffers"))]
    pub const fn stall(number: u8) -> Frame<'b> {
        Frame { kind: b'S', change: [0, number], bytes: &[] }
    }

    pub fn send(self, uart: &mut Uart, leds: u8) {
        let [change, value] = self.change;
        uart.send(&[self.kind, leds, change, value, self.bytes.len() as u8]);
        uart.send(self.bytes);
    }
}

/// The rows of a scan.
pub fn scan(uart: &mut Uart) -> Scan {
    let bytes: [u8; 12] = uart.bytes();
    Scan { rows: core::array::from_fn(|row| u16::from_le_bytes([bytes[2 * row], bytes[2 * row + 1]])) }
}

/// An OUT packet and its length.
pub fn out(uart: &mut Uart) -> ([u8; 8], usize) {
    let [length, packet @ ..] = uart.bytes::<9>();
    (packet, usize::from(length).min(8))
}

/// Sends a layer of the keymap in RAM: what a firmware in the field has no use for, and a test has.
#[inline(never)]
pub fn dump<D: Defaults>(uart: &mut Uart, keyboard: &KeyboardOf<D>) {
    let mut bytes = [0; 192];
    if let Ok(layer) = LayerNo::read(uart.byte()) {
        for (key, place) in (0..).zip(bytes.chunks_exact_mut(2)) {
            if let Ok(key) = KeyNo::read(key) {
                place.copy_from_slice(&keyboard.keymap().get(layer, key).bits().to_le_bytes());
            }
        }
    }
    Frame::data(&bytes).send(uart, keyboard.leds());
}
