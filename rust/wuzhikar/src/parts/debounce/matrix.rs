// Exported from crates/debounce/src/matrix.rt by bin/export-rust. Edit that file instead.
//! What is kept of the keys from scan to scan, in words.

use crate::parts::debounce::Scan;
use crate::parts::debounce::row::{Row, joined};
use crate::parts::debounce::set::KeySet;

/// The value of each key, up or down, after the scans that were fed: what is kept of each pair of rows.
#[derive(Clone, Debug)]
pub struct Matrix {
    first: [u32; 3],
    second: [u32; 3],
    third: [u32; 3],
    down: [u32; 3],
}

impl Matrix {
    /// Zeros, where memory waits for a keyboard to start there.
    pub(crate) const UNSTARTED: Self = Matrix { first: [0; 3], second: [0; 3], third: [0; 3], down: [0; 3] };
}

impl Matrix {
    /// Every key up, before the first scan.
    pub fn new() -> Matrix {
        Matrix {
            first: [0; 3],
            second: [0; 3],
            third: [0; 3],
            down: [0; 3],
        }
    }

    /// Takes one more scan, one millisecond after the last, and answers which keys it changed.
    #[inline(always)]
    pub fn feed(&mut self, scan: &Scan) -> KeySet {
        let mut flips = [0; 3];
        for pair in 0..3usize {
            let before = self.pair(pair);
            let after = before.sampled(joined(&scan.rows, pair));
            flips[pair] = before.down ^ after.down;
            self.keep(pair, after);
        }
        KeySet::of_words(flips)
    }

    /// What is kept of a pair of rows.
    #[inline(always)]
    fn pair(&self, pair: usize) -> Row {
        Row {
            first: self.first[pair],
            second: self.second[pair],
            third: self.third[pair],
            down: self.down[pair],
        }
    }

    /// Keeps this of a pair of rows.
    #[inline(always)]
    fn keep(&mut self, pair: usize, row: Row) {
        self.first[pair] = row.first;
        self.second[pair] = row.second;
        self.third[pair] = row.third;
        self.down[pair] = row.down;
    }

    /// Of the keys that the latest scan changed those that are up.
    #[inline(always)]
    pub fn released(&self, flips: &KeySet) -> KeySet {
        let [first, second, third] = flips.words();
        let [a, b, c] = &self.down;
        KeySet::of_words([*first & !*a, *second & !*b, *third & !*c])
    }

    /// Of the keys that the latest scan changed those that are down.
    #[inline(always)]
    pub fn pressed(&self, flips: &KeySet) -> KeySet {
        let [first, second, third] = flips.words();
        let [a, b, c] = &self.down;
        KeySet::of_words([*first & *a, *second & *b, *third & *c])
    }

    /// Whether a key, one of 0 to 95, is down.
    pub(crate) fn is_down(&self, key: u8) -> bool {
        has_bit(self.down[key as usize / 32], key % 32)
    }
}

/// Whether a word has a bit.
fn has_bit(word: u32, place: u8) -> bool {
    (word >> place) & 1 == 1
}
