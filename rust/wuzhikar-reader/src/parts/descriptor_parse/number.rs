// Exported from crates/descriptor_parse/src/number.rt by bin/export-rust. Edit that file instead.
//! The numbers that an item's data make (HID 1.11, 6.2.2.2).

/// The number of up to four bytes, the least significant first.
#[inline(always)]
pub fn unsigned(bytes: &[u8]) -> u32 {
    // Most data have one byte.
    if bytes.len() == 1 {
        return bytes[0] as u32;
    }
    u32::from_le_bytes([
        byte(bytes, 0),
        byte(bytes, 1),
        byte(bytes, 2),
        byte(bytes, 3),
    ])
}

/// The same in two's complement of as many bytes.
pub fn signed(bytes: &[u8]) -> i64 {
    let value = unsigned(bytes) as i64;
    let range = range_of(bytes.len());
    if 2 * value < range {
        value
    } else {
        value - range
    }
}

/// How many numbers so many bytes make.
fn range_of(len: usize) -> i64 {
    match len {
        0 => 1,
        1 => 0x100,
        2 => 0x1_0000,
        3 => 0x100_0000,
        _ => 0x1_0000_0000,
    }
}

/// The byte at `place`, 0 past the end.
fn byte(bytes: &[u8], place: usize) -> u8 {
    bytes.get(place).copied().unwrap_or(0)
}
