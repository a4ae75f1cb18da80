// Exported from crates/descriptor_parse/src/usage.rt by bin/export-rust. Edit that file instead.
//! A usage as it is written (HID 1.11, 6.2.2.8).

use crate::parts::descriptor_parse::number::unsigned;

/// A usage as it is written: with its page, or without.
#[derive(Clone, Copy, Debug)]
pub enum Usage {
    /// Two bytes or fewer: of the Usage Page in force.
    Short(u16),
    /// Four bytes: with its page in the high half.
    Whole(u32),
}

/// The usage that the data of a Local item write.
#[inline(always)]
pub fn read_usage(bytes: &[u8]) -> Usage {
    // Most usages have one byte.
    if bytes.len() == 1 {
        return Usage::Short(bytes[0] as u16);
    }
    let number = unsigned(bytes);
    if bytes.len() == 4 {
        Usage::Whole(number)
    } else {
        Usage::Short(number as u16)
    }
}

impl Usage {
    /// The number of the usage, where a short one is of this page.
    #[inline(always)]
    pub fn on(self, page: u16) -> u32 {
        match self {
            Usage::Short(id) => page as u32 * 0x1_0000 + id as u32,
            Usage::Whole(number) => number,
        }
    }
}
