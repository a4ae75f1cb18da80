// Exported from crates/layers/src/bits.rt by bin/export-rust. Edit that file instead.
//! Sets of numbers as bits, 32 to a word.

/// Whether a number is in a set.
pub(crate) fn contains(words: &[u32], number: u16) -> bool {
    (words[number as usize / 32] >> (number % 32)) & 1 == 1
}

/// Adds a number to a set.
pub(crate) fn insert(words: &mut [u32], number: u16) {
    words[number as usize / 32] |= 1 << (number % 32);
}

/// Takes a number out of a set.
pub(crate) fn remove(words: &mut [u32], number: u16) {
    words[number as usize / 32] &= !(1 << (number % 32));
}

/// The least number at or after `from` in a set of at most 1,024 numbers, if there is one.
pub(crate) fn next_member(words: &[u32], from: u16) -> Option<u16> {
    let first = from as usize / 32;
    if first >= words.len() {
        return None;
    }
    let bits = words[first] >> (from % 32);
    if bits != 0 {
        return Some(from + bits.trailing_zeros() as u16);
    }
    for place in first + 1..words.len() {
        let bits = words[place];
        if bits != 0 {
            return Some(32 * place as u16 + bits.trailing_zeros() as u16);
        }
    }
    None
}
