// Exported from crates/script/src/number.rt by bin/export-rust. Edit that file instead.
//! Reading the numbers and the bytes that words write.

use crate::parts::script::LineFault;
use arrayvec::ArrayVec;
use crate::rattle::hex::FromHex;
use core::num::NonZeroU16;

/// The most digits of a decimal number.
const MOST_DIGITS: usize = 5;

/// The number that a word of 1 to 5 decimal digits writes, below `bound`; `BadNumber` otherwise.
pub(crate) fn number(word: &[u8], bound: u32) -> Result<u32, LineFault> {
    if word.len() > MOST_DIGITS || word.first() == Some(&b'+') {
        return Err(LineFault::BadNumber);
    }
    let Ok(digits) = core::str::from_utf8(word) else {
        return Err(LineFault::BadNumber);
    };
    match digits.parse::<u32>() {
        Ok(value) if value < bound => Ok(value),
        _ => Err(LineFault::BadNumber),
    }
}

/// The number of a byte, 0 to 255, that a word writes; `BadNumber` otherwise.
pub(crate) fn byte(word: &[u8]) -> Result<u8, LineFault> {
    Ok(number(word, 256)? as u8)
}

/// The `N` bytes that a word of 2 * `N` hex digits writes; `BadHex` otherwise.
pub(crate) fn bytes<const N: usize>(word: &[u8]) -> Result<[u8; N], LineFault> {
    match <[u8; N] as FromHex>::from_hex(word) {
        Ok(bytes) => Ok(bytes),
        Err(_) => Err(LineFault::BadHex),
    }
}

/// The 1 to 8 bytes that a word of 2 to 16 hex digits writes; `BadHex` otherwise.
pub(crate) fn packet(word: &[u8]) -> Result<ArrayVec<u8, 8>, LineFault> {
    bytes_up_to(word)
}

/// The 1 to `N` bytes that a word of hex digits writes; `BadHex` otherwise.
pub(crate) fn bytes_up_to<const N: usize>(word: &[u8]) -> Result<ArrayVec<u8, N>, LineFault> {
    let count = word.len() / 2;
    if count == 0 || count > N {
        return Err(LineFault::BadHex);
    }
    let mut bytes = ArrayVec::from([0; N]);
    bytes.truncate(count);
    match crate::rattle::hex::decode_to_slice(word, bytes.as_mut_slice()) {
        Ok(()) => Ok(bytes),
        Err(_) => Err(LineFault::BadHex),
    }
}

/// The number of scans, 1 to 10,000, that a word writes; `BadNumber` otherwise.
pub(crate) fn count(word: &[u8]) -> Result<NonZeroU16, LineFault> {
    match NonZeroU16::new(number(word, 10_001)? as u16) {
        Some(count) => Ok(count),
        None => Err(LineFault::BadNumber),
    }
}
