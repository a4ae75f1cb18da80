//! Codes of the keymap: which there are, and those that stand in entries that no command wrote.

use wuzhikar::{Code, Defaults, Standard};

/// Whether a number is a code: 1, or 0.
#[unsafe(no_mangle)]
pub extern "C" fn is_code(number: u32) -> i32 {
    u16::try_from(number).is_ok_and(|bits| Code::read(bits).is_ok()).into()
}

/// The default code of the entry at a place, 96 times the layer plus the key.
#[unsafe(no_mangle)]
pub extern "C" fn default_code(place: usize) -> i32 {
    Standard::code_at(place).bits().into()
}
