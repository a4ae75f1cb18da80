// Exported from crates/layers/src/usages.rt by bin/export-rust. Edit that file instead.
//! The usages of the keys that are held, as sets of bits.

use crate::parts::layers::Code;
use crate::parts::layers::bits::{contains, insert, next_member};

/// How many words of 32 bits hold the usages 000h to 3FFh.
const CONSUMER_WORDS: usize = 32;

/// How many words of 32 bits hold the usages 00h to FFh.
const KEY_WORDS: usize = 8;

/// A set of usages of the keyboard page 07h (HUT section 10), and one of usages 001h to 3FFh of the
/// consumer page 0Ch (HUT section 15).
///
/// ```rust
/// # #[cfg(feature = "sim")]
/// # fn main() -> Result<(), wuzhikar::PageCount> {
/// use wuzhikar::{Keyboard, Scan, SimFlash};
///
/// let flash = SimFlash::blank(2).unwrap();
/// let mut keyboard = Keyboard::on(&flash)?;
/// for _ in 0..5 {
///     keyboard.scan(Scan { rows: [0b10, 0, 0, 0, 0, 0] });
/// }
/// let usages = keyboard.usages();
/// assert!(usages.has_key(0x05));
/// assert_eq!(usages.next_key(0), Some(0x05));
/// # Ok(())
/// # }
/// # #[cfg(not(feature = "sim"))]
/// # fn main() {}
/// ```
#[derive(Clone, Copy, Debug, PartialEq, Eq)]
pub struct Usages {
    keys: [u32; KEY_WORDS],
    consumer: [u32; CONSUMER_WORDS],
    /// The words of `consumer` that have a usage, as bits.
    occupied: [u32; 1],
}

impl Usages {
    /// Zeros, where memory waits for a keyboard to start there.
    pub(crate) const UNSTARTED: Self = Usages { keys: [0; KEY_WORDS], consumer: [0; CONSUMER_WORDS], occupied: [0; 1] };
}

impl Usages {
    /// Makes a set without a usage.
    pub fn none() -> Usages {
        Usages {
            keys: [0; KEY_WORDS],
            consumer: [0; CONSUMER_WORDS],
            occupied: [0],
        }
    }

    /// Leaves no usage.
    pub(crate) fn clear(&mut self) {
        self.keys = [0; KEY_WORDS];
        clear_consumer(&mut self.consumer, &mut self.occupied);
    }

    /// Adds the usage that a code names, if it names one.
    pub(crate) fn add(&mut self, code: Code) {
        insert_key_usage(&mut self.keys, code);
        insert_consumer(&mut self.consumer, &mut self.occupied, code);
    }

    /// Returns whether a usage of page 07h is in the set.
    pub fn has_key(&self, usage: u8) -> bool {
        contains(&self.keys, usage as u16)
    }

    /// Returns the modifiers in the set: bit i is usage E0h + i of page 07h.
    pub fn modifiers(&self) -> u8 {
        (self.keys[0xE0 / 32] % 0x100) as u8
    }

    /// Returns the set of page 07h as bits: bit i of word w is usage 32 * w + i.
    pub fn key_words(&self) -> &[u32; 8] {
        &self.keys
    }

    /// Returns the least usage of page 07h in the set that is at or after `from`, if there is one.
    pub fn next_key(&self, from: u8) -> Option<u16> {
        next_member(&self.keys, from as u16)
    }

    /// Returns whether a usage of page 0Ch is in the set.
    pub fn has_consumer(&self, usage: u16) -> bool {
        usage < 0x400 && contains(&self.consumer, usage)
    }

    /// Returns the least usage of page 0Ch in the set that is at or after `from`, if there is one.
    pub fn next_consumer(&self, from: u16) -> Option<u16> {
        match next_member(&self.occupied, from / 32) {
            Some(place) => next_member(&self.consumer, later(from, 32 * place)),
            None => None,
        }
    }
}

/// Adds the usage of page 07h that a code names, if it names one.
fn insert_key_usage(set: &mut [u32], code: Code) {
    if let Some(usage) = code.key_usage() {
        insert(set, u16::from(usage));
    }
}

/// The later of two numbers.
fn later(a: u16, b: u16) -> u16 {
    if a < b { b } else { a }
}

/// Adds the usage of page 0Ch that a code names, if it names one, and marks its word.
fn insert_consumer(set: &mut [u32], occupied: &mut [u32], code: Code) {
    if let Some(usage) = code.consumer_usage() {
        insert(set, usage);
        insert(occupied, usage / 32);
    }
}

/// Leaves no usage of page 0Ch. Most often there was none, and then nothing is written.
fn clear_consumer(set: &mut [u32; CONSUMER_WORDS], occupied: &mut [u32; 1]) {
    if occupied[0] != 0 {
        *set = [0; CONSUMER_WORDS];
        *occupied = [0];
    }
}
