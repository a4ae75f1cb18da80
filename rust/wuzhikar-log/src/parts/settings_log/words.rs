// Exported from crates/settings_log/src/words.rt by bin/export-rust. Edit that file instead.
//! The words of a store: the header of a page, and those of a change.

/// The most bytes that a value has.
pub const MAX_BYTES: usize = 1024;

/// How many page numbers there are.
const NUMBERS: u32 = 1 << 28;

/// The greatest page number.
pub const LAST_NUMBER: u32 = NUMBERS - 1;

/// The header of the page with number 0.
const HEADER: u32 = 3 * NUMBERS;

/// How many values a word of data has.
const DATA: u32 = 1 << 24;

/// What a head is made of: its mark, the last of its change, the first of its change, a removal, and one byte more.
const HEAD: u32 = 1 << 30;

const LAST: u32 = 1 << 29;

const FIRST: u32 = 1 << 28;

const REMOVAL: u32 = 1 << 27;

const BYTE_MORE: u32 = 1 << 16;

/// What the word says that begins the words of an id.
#[derive(Clone, Copy, Debug, PartialEq, Eq)]
pub struct Head {
    pub id: u16,
    /// How many bytes its value has, at most 1,024.
    pub len: u16,
    /// The id has no value any more, and `len` is 0.
    pub removal: bool,
    /// A change begins here.
    pub first: bool,
    /// The change ends with the words of this id.
    pub last: bool,
}

/// What a word is to a change.
#[derive(Clone, Copy, Debug, PartialEq, Eq)]
pub enum Word {
    /// Three bytes of a value.
    Data,
    /// The words of an id begin.
    Begins(Head),
    /// No word of a change.
    Other,
}

/// The number of a page with this header.
pub fn number_of(word: u32) -> Option<u32> {
    if word / NUMBERS == 3 {
        Some(word % NUMBERS)
    } else {
        None
    }
}

/// The header of a page with this number.
pub fn header(number: u32) -> u32 {
    HEADER + number
}

/// What a word is to a change.
pub fn word_kind(word: u32) -> Word {
    if word / DATA == 0 {
        return Word::Data;
    }
    match head_of_word(word) {
        Some(head) => Word::Begins(head),
        None => Word::Other,
    }
}

/// The head that a word is.
pub fn head_of_word(word: u32) -> Option<Head> {
    let len = (word / BYTE_MORE % 2048) as u16;
    let removal = word / REMOVAL % 2 == 1;
    if word / HEAD == 1 && len <= 1024 && (!removal || len == 0) {
        Some(Head {
            id: (word % BYTE_MORE) as u16,
            len,
            removal,
            first: word / FIRST % 2 == 1,
            last: word / LAST % 2 == 1,
        })
    } else {
        None
    }
}

/// The word of a head.
pub fn head_word(head: Head) -> u32 {
    HEAD + u32::from(head.last) * LAST
        + u32::from(head.first) * FIRST
        + u32::from(head.removal) * REMOVAL
        + u32::from(head.len) * BYTE_MORE
        + u32::from(head.id)
}

/// How many words so many bytes take.
pub fn data_words(len: u16) -> u16 {
    len / 3 + u16::from(len % 3 > 0)
}

/// The word of the three bytes from one on; what is missing is zeros.
pub fn data_word(bytes: &[u8], at: usize) -> u32 {
    byte_at(bytes, at + 2) * 65536 + byte_at(bytes, at + 1) * 256 + byte_at(bytes, at)
}

/// A byte, or 0 past the end.
fn byte_at(bytes: &[u8], at: usize) -> u32 {
    match bytes.get(at) {
        Some(byte) => u32::from(*byte),
        None => 0,
    }
}

/// The bytes of a word of data.
pub fn word_bytes(word: u32) -> [u8; 3] {
    [
        (word % 256) as u8,
        (word / 256 % 256) as u8,
        (word / 65536 % 256) as u8,
    ]
}
