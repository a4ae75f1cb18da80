// SPDX-License-Identifier: MIT OR Apache-2.0
//! The board: 5 rows and 14 columns with 61 switches, one of which is a layer key. Write your own in its place.

use wuzhikar::{KEYS, LAYERS, Layout, Switches};

pub const ROWS: usize = 5;
pub const COLUMNS: usize = 14;

/// A place without a switch.
const NO: u8 = Switches::<ROWS, COLUMNS>::NO_KEY;

/// Which switch is which key.
pub const SWITCHES: Switches<ROWS, COLUMNS> = Switches::new([
    [0, 1, 2, 3, 4, 5, 6, 7, 8, 9, 10, 11, 12, 13],
    [14, 15, 16, 17, 18, 19, 20, 21, 22, 23, 24, 25, 26, 27],
    [28, 29, 30, 31, 32, 33, 34, 35, 36, 37, 38, 39, NO, 40],
    [41, NO, 42, 43, 44, 45, 46, 47, 48, 49, 50, 51, NO, 52],
    [53, 54, 55, NO, NO, NO, 56, NO, NO, NO, 57, 58, 59, 60],
]);

/// What a layer below says.
const T: u16 = 0x0001;

/// Layer 1, while its key is held.
const FN: u16 = 0x5001;

/// Usages of the keyboard page (HUT page 07h) as a US keyboard has them. The places without a switch are not looked at.
const BASE: [[u16; COLUMNS]; ROWS] = [
    [0x29, 0x1E, 0x1F, 0x20, 0x21, 0x22, 0x23, 0x24, 0x25, 0x26, 0x27, 0x2D, 0x2E, 0x2A],
    [0x2B, 0x14, 0x1A, 0x08, 0x15, 0x17, 0x1C, 0x18, 0x0C, 0x12, 0x13, 0x2F, 0x30, 0x31],
    [0x39, 0x04, 0x16, 0x07, 0x09, 0x0A, 0x0B, 0x0D, 0x0E, 0x0F, 0x33, 0x34, 0, 0x28],
    [0xE1, 0, 0x1D, 0x1B, 0x06, 0x19, 0x05, 0x11, 0x10, 0x36, 0x37, 0x38, 0, 0xE5],
    [0xE0, 0xE3, 0xE2, 0, 0, 0, 0x2C, 0, 0, 0, 0xE6, FN, 0x65, 0xE4],
];

/// F1 to F12, Delete, the arrows and the volume keys (4000h and the usage of HUT page 0Ch).
const HELD: [[u16; COLUMNS]; ROWS] = [
    [0x35, 0x3A, 0x3B, 0x3C, 0x3D, 0x3E, 0x3F, 0x40, 0x41, 0x42, 0x43, 0x44, 0x45, 0x4C],
    [T, T, 0x52, T, T, T, T, T, T, T, T, T, T, T],
    [T, 0x50, 0x51, 0x4F, T, T, T, T, T, T, T, T, T, T],
    [T, T, T, T, T, T, T, 0x40E2, 0x40EA, 0x40E9, T, T, T, T],
    [T, T, T, T, T, T, T, T, T, T, T, T, T, T],
];

/// The default codes. A host changes entries, and its reset gives these back.
pub struct Sixty;

impl Layout for Sixty {
    const CODES: &'static [[u16; KEYS]; LAYERS] = &[SWITCHES.layer(BASE), SWITCHES.layer(HELD), [T; KEYS], [T; KEYS]];
}
