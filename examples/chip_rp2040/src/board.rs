// SPDX-License-Identifier: MIT OR Apache-2.0
//! The board: pins, switches, codes and names. **Change this file.** Four rows of twelve switches, each with a diode that conducts
//! from its column to its row. A row is driven low, and columns with a closed switch follow.

use wuzhikar::{KEYS, LAYERS, Layout, Switches};
use wuzhikar_device::{Identity, Product, utf16};

pub const ROWS: [u32; 4] = [0, 1, 2, 3];
pub const COLUMNS: [u32; 12] = [4, 5, 6, 7, 8, 9, 10, 11, 12, 13, 14, 16];
/// The pin of Caps Lock's lamp.
pub const LAMP: u32 = 25;

/// Which switch is which key. `Switches::<4, 12>::NO_KEY` is a place without a switch.
pub const SWITCHES: Switches<4, 12> = Switches::new([
    [0, 1, 2, 3, 4, 5, 6, 7, 8, 9, 10, 11],
    [12, 13, 14, 15, 16, 17, 18, 19, 20, 21, 22, 23],
    [24, 25, 26, 27, 28, 29, 30, 31, 32, 33, 34, 35],
    [36, 37, 38, 39, 40, 41, 42, 43, 44, 45, 46, 47],
]);

/// What a layer below says, and layer 1 while its key is held.
const T: u16 = 0x0001;
const FN: u16 = 0x5001;

/// Usages of the keyboard page (HUT page 07h).
const BASE: [[u16; 12]; 4] = [
    [0x2B, 0x14, 0x1A, 0x08, 0x15, 0x17, 0x1C, 0x18, 0x0C, 0x12, 0x13, 0x2A],
    [0x29, 0x04, 0x16, 0x07, 0x09, 0x0A, 0x0B, 0x0D, 0x0E, 0x0F, 0x33, 0x28],
    [0xE1, 0x1D, 0x1B, 0x06, 0x19, 0x05, 0x11, 0x10, 0x36, 0x37, 0x38, 0xE5],
    [0xE0, 0xE3, 0xE2, 0x39, FN, 0x2C, 0x2C, FN, 0x50, 0x51, 0x52, 0x4F],
];

/// Numbers, F1 to F12, signs, and the volume keys (4000h and the usage of HUT page 0Ch).
const HELD: [[u16; 12]; 4] = [
    [0x35, 0x1E, 0x1F, 0x20, 0x21, 0x22, 0x23, 0x24, 0x25, 0x26, 0x27, 0x4C],
    [0x3A, 0x3B, 0x3C, 0x3D, 0x3E, 0x3F, 0x40, 0x41, 0x42, 0x43, 0x44, 0x45],
    [T, 0x40E2, 0x40EA, 0x40E9, T, T, 0x2D, 0x2E, 0x2F, 0x30, 0x31, T],
    [T, T, T, T, T, T, T, T, 0x4A, 0x4E, 0x4B, 0x4D],
];

/// The codes until a host changes them.
pub struct Codes;

impl Layout for Codes {
    const CODES: &'static [[u16; KEYS]; LAYERS] = &[SWITCHES.layer(BASE), SWITCHES.layer(HELD), [T; KEYS], [T; KEYS]];
}

/// What the host reads. Vendor 1209h, product 0001h is for tests: put in your own.
pub static PRODUCT: Product<'static> = Product::new(Identity {
    manufacturer: utf16!("Example"),
    product: utf16!("Wuzhikar keyboard"),
    serial_number: utf16!("RP2040"),
    ..Identity::TEST
});

/// The pins, or what plays them.
pub trait Pads {
    /// Drives a pin low, or lets it be pulled up.
    fn pull_down(&mut self, pin: u32, down: bool);
    /// The levels of all pins, once they have settled.
    fn levels(&mut self) -> u32;
}

/// Which switches are closed: bit c of row r, of at most 16 columns.
pub fn scan(pads: &mut impl Pads) -> [u16; ROWS.len()] {
    ROWS.map(|row| {
        pads.pull_down(row, true);
        let levels = pads.levels();
        pads.pull_down(row, false);
        COLUMNS.iter().rev().fold(0, |closed, column| closed << 1 | u16::from(levels >> column & 1 == 0))
    })
}
