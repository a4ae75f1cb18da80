// SPDX-License-Identifier: MIT OR Apache-2.0
//! The sizes of objects that the header names, compared with theirs when this is compiled.

use crate::edge::Object;
use crate::flash::Flash;
use wuzhikar_log::{Change, FlashLog, FlashSettings};

const HEADER: &[u8] = include_bytes!("../wuzhikar.h");

/// The number behind a name in the header: the first for pointers of 64 bits, the second for those of 32.
const fn named(name: &str) -> usize {
    let mut left = if cfg!(target_pointer_width = "64") { 1 } else { 2 };
    let mut at = 0;
    while left > 0 {
        at += 1;
        if is_at(name.as_bytes(), at) {
            left -= 1;
        }
    }
    at += name.len() + 1;
    let mut number = 0;
    while HEADER[at].is_ascii_digit() {
        number = 10 * number + (HEADER[at] - b'0') as usize;
        at += 1;
    }
    number
}

/// Whether a name stands in the header at a place, with a definition before it and a space behind.
const fn is_at(name: &[u8], at: usize) -> bool {
    let mut place = 0;
    while place < name.len() {
        if HEADER[at + place] != name[place] {
            return false;
        }
        place += 1;
    }
    HEADER[at - 1] == b' ' && HEADER[at - 2] == b'e' && HEADER[at + place] == b' '
}

/// An object has room in what the header gives it, which is not more than 32 bytes too much.
const fn fits<T>(name: &str) {
    let room = named(name);
    assert!(size_of::<T>() <= room, "the header gives an object too little memory");
    assert!(room - size_of::<T>() <= 32, "the header gives an object too much memory");
    assert!(room % 8 == 0 && align_of::<T>() <= align_of::<u64>(), "the header aligns an object otherwise");
}

const _: () = {
    fits::<Object<crate::keyboard::Keyboard>>("WZ_KEYBOARD_BYTES");
    fits::<Object<crate::device::Device>>("WZ_DEVICE_BYTES");
    fits::<Object<FlashLog<Flash>>>("WZ_LOG_BYTES");
    fits::<Object<FlashSettings<Flash>>>("WZ_SETTINGS_BYTES");
    fits::<Object<crate::paired::Paired>>("WZ_PAIRED_BYTES");
    fits::<Change>("WZ_CHANGE_BYTES");
    // By their sizes objects of two kinds are told apart.
    let flashes = [size_of::<Object<crate::paired::Paired>>(), size_of::<Object<FlashLog<Flash>>>()];
    assert!(flashes[0] < flashes[1] && flashes[1] < size_of::<Object<FlashSettings<Flash>>>());
    assert!(size_of::<Object<crate::keyboard::Keyboard>>() < size_of::<Object<crate::device::Device>>());
};
