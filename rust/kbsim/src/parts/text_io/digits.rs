// Exported from crates/text_io/src/digits.rt by bin/export-rust. Edit that file instead.
//! Bytes and numbers as hex digits.

use core::fmt;

/// Bytes as hex digits in lower case, two a byte.
#[derive(Clone, Copy, Debug, PartialEq, Eq)]
pub struct HexDigits<'a>(pub &'a [u8]);

impl fmt::Display for HexDigits<'_> {
    fn fmt(&self, f: &mut fmt::Formatter<'_>) -> fmt::Result {
        let bytes = self.0;
        for byte in bytes {
            let byte = *byte;
            write!(f, "{byte:02x}")?;
        }
        Ok(())
    }
}

/// A number of 32 bits as eight hex digits in lower case, such as a usage: its page, and its number on that page.
#[derive(Clone, Copy, Debug, PartialEq, Eq)]
pub struct HexWord(pub u32);

impl fmt::Display for HexWord {
    fn fmt(&self, f: &mut fmt::Formatter<'_>) -> fmt::Result {
        let bytes = self.0.to_be_bytes();
        let digits = HexDigits(bytes.as_slice());
        write!(f, "{digits}")
    }
}
