// Exported from crates/field_values/src/bits.rt by bin/export-rust. Edit that file instead.
//! Numbers into the bits of a report.

/// Writes a number of `size` bits from the bit `from` on, the least significant first. A bit of a report is counted from
/// the lowest one of its first byte; those past the end are left out.
pub fn put_number(bytes: &mut [u8], from: u64, size: u8, number: u32) {
    for place in 0..size {
        put_bit(bytes, from + place as u64, (number >> place) % 2 == 1);
    }
}

/// Writes one bit, where there is one.
fn put_bit(bytes: &mut [u8], bit: u64, one: bool) {
    // Compared before the cast, which loses bits where a `usize` has 32.
    if bit / 8 < bytes.len() as u64 {
        let place = (bit / 8) as usize;
        bytes[place] = with_bit(bytes[place], (bit % 8) as u8, one);
    }
}

/// A byte with this bit set or clear.
fn with_bit(byte: u8, place: u8, one: bool) -> u8 {
    if one {
        byte | (1 << place)
    } else {
        byte & !(1 << place)
    }
}
