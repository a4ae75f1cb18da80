// Exported from crates/debounce/src/set.rt by bin/export-rust. Edit that file instead.
//! The keys of a scan, 32 to a word.

use crate::parts::debounce::row::{joined, parts};
use crate::parts::debounce::{Keys, Scan};

/// A set of keys, as a scan has it: bit c of word w is key 32 * w + c.
#[derive(Debug)]
pub struct KeySet {
    words: [u32; 3],
}

impl KeySet {
    /// The keys of these words.
    #[inline(always)]
    pub(crate) fn of_words(words: [u32; 3]) -> KeySet {
        KeySet { words }
    }

    /// The keys of a scan.
    #[inline(always)]
    pub fn of(scan: &Scan) -> KeySet {
        KeySet {
            words: [
                joined(&scan.rows, 0),
                joined(&scan.rows, 1),
                joined(&scan.rows, 2),
            ],
        }
    }

    /// Its words.
    #[inline(always)]
    pub(crate) fn words(&self) -> &[u32; 3] {
        &self.words
    }

    /// Whether it has no key.
    #[inline(always)]
    pub fn is_empty(&self) -> bool {
        let [first, second, third] = &self.words;
        *first | *second | *third == 0
    }

    /// The same keys as a scan.
    pub fn scan(&self) -> Scan {
        let [first, second, third] = &self.words;
        Scan {
            rows: parts(*first, *second, *third),
        }
    }

    /// The numbers of its keys, in rising order, at most 96.
    #[inline(always)]
    pub fn keys(&self) -> Keys {
        Keys::of(self.words)
    }
}
