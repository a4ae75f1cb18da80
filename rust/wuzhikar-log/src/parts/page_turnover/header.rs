// Exported from crates/page_turnover/src/header.rt by bin/export-rust. Edit that file instead.
//! The header of a page.

/// The header word of sequence number 0 in format 1, and what a format more adds to it.
const FIRST_HEADER: u32 = 1 << 28;

/// The format of the headers that are written.
pub const FORMAT: u8 = 2;

/// The greatest sequence number, of 28 bits.
pub const LAST_SEQ: u32 = (1 << 28) - 1;

/// Whether a word is a header of either format.
pub fn is_header(word: u32) -> bool {
    word / FIRST_HEADER == 1 || word / FIRST_HEADER == 2
}

/// The sequence number of a header word.
pub fn seq_of(word: u32) -> u32 {
    word % FIRST_HEADER
}

/// The format of a header word.
pub fn word_format(word: u32) -> u8 {
    (word / FIRST_HEADER) as u8
}

/// The header word of a sequence number, of format 2.
pub fn header(seq: u32) -> u32 {
    2 * FIRST_HEADER + seq
}
