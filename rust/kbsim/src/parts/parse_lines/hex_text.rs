// Exported from crates/parse_lines/src/hex_text.rt by bin/export-rust. Edit that file instead.
//! The bytes that a text of hex digits says.

use crate::parts::parse_lines::LinesError;
use crate::rattle::hex::FromHexError;
use crate::rattle::alloc::Global;

/// The bytes of a text of hex digits, two a byte, in either case. Spaces, tabs, CR and LF are dropped. `BadHexText`
/// comes at any other character, or where the number of digits is odd. `Memory` comes where pairs of digits find no room.
pub fn bytes_of(alloc: Global, text: crate::rattle::Vec<u8>) -> Result<crate::rattle::Vec<u8>, LinesError> {
    let digits = without_blanks(text);
    match crate::rattle::hex::decode(alloc, digits.as_slice()) {
        Ok(bytes) => Ok(bytes),
        Err(error) => match error {
            FromHexError::OutOfMemory => Err(LinesError::Memory),
            _ => Err(LinesError::BadHexText),
        },
    }
}

/// The text without its blanks.
fn without_blanks(mut text: crate::rattle::Vec<u8>) -> crate::rattle::Vec<u8> {
    text.retain(|character| !is_blank(*character));
    text
}

/// Whether a character is a space, a tab, CR or LF.
fn is_blank(character: u8) -> bool {
    matches!(character, b' ' | b'\t' | b'\r' | b'\n')
}
