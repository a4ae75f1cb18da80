// Exported from crates/reports/src/words.rt by bin/export-rust. Edit that file instead.
//! Bytes four to a word, the first in the low bits, since a chip compares and copies words.

/// Four bytes as a word.
pub fn word(a: u8, b: u8, c: u8, d: u8) -> u32 {
    a as u32 + 0x100 * b as u32 + 0x1_0000 * c as u32 + 0x100_0000 * d as u32
}

/// The four bytes of a word.
pub fn four(word: u32) -> [u8; 4] {
    [
        (word % 0x100) as u8,
        (word / 0x100 % 0x100) as u8,
        (word / 0x1_0000 % 0x100) as u8,
        (word / 0x100_0000) as u8,
    ]
}

/// The words of at most 24 bytes, and zeros behind them.
pub fn words_of(bytes: &[u8]) -> [u32; 6] {
    [
        word_at(bytes, 0),
        word_at(bytes, 4),
        word_at(bytes, 8),
        word_at(bytes, 12),
        word_at(bytes, 16),
        word_at(bytes, 20),
    ]
}

/// The word of four bytes from a place on.
fn word_at(bytes: &[u8], from: u8) -> u32 {
    word(
        byte_at(bytes, from),
        byte_at(bytes, from + 1),
        byte_at(bytes, from + 2),
        byte_at(bytes, from + 3),
    )
}

/// The byte at a place, 0 behind the last.
fn byte_at(bytes: &[u8], place: u8) -> u8 {
    match bytes.get(usize::from(place)) {
        Some(byte) => *byte,
        None => 0,
    }
}
