//! A second layout for each test that draws: no code is the standard's at its place, and each kind of code is among them. Keys 0,
//! 7, .. of layer 0 are transparent, keys 1, 8, .. are layer keys, and keys 2, 9, .. do nothing.
//!
//! Tests of other crates take this file by its path.

use wuzhikar::{KEYS, LAYERS, Layout};

#[derive(Debug)]
pub struct Other;

impl Layout for Other {
    const CODES: &'static [[u16; KEYS]; LAYERS] = &{
        let mut codes = [[0; KEYS]; LAYERS];
        let mut key = 0;
        while key < KEYS {
            let k = key as u16;
            codes[0][key] = match k % 7 {
                0 => 0x0001,
                1 => 0x5001 + k % 3,
                2 => 0x0000,
                3 => 0x4001 + k,
                4 => 0x00E7 - k % 8,
                _ => 0x00A4 - k,
            };
            let mut layer = 1;
            while layer < LAYERS {
                codes[layer][key] = [0x0000, 0x5003, 0x40E0 + k, 0x0004 + k][(key + layer) % 4];
                layer += 1;
            }
            key += 1;
        }
        codes
    };
}
