// Exported from crates/debounce/src/debouncer.rt by bin/export-rust. Edit that file instead.
//! The debouncer by scans.

use crate::parts::debounce::Scan;
use crate::parts::debounce::matrix::Matrix;
use crate::parts::debounce::row::{Count, joined, parts};

/// The keys whose value a scan changed.
#[derive(Clone, Copy, Debug, PartialEq, Eq)]
pub struct Edges {
    /// The keys that were down and are up.
    pub released: Scan,
    /// The keys that were up and are down.
    pub pressed: Scan,
}

impl Edges {
    /// Returns whether no key changed.
    pub fn is_none(&self) -> bool {
        let released = joined(&self.released.rows, 0)
            | joined(&self.released.rows, 1)
            | joined(&self.released.rows, 2);
        let pressed = joined(&self.pressed.rows, 0)
            | joined(&self.pressed.rows, 1)
            | joined(&self.pressed.rows, 2);
        released | pressed == 0
    }
}

/// The value of each key, up or down, after the scans that were fed.
#[derive(Clone, Debug)]
pub struct Debouncer {
    matrix: Matrix,
    latest: Scan,
    /// How many of the latest samples of a key are equal, counted to five: plane p has its bit p, at
    /// the place that the key has in a scan.
    planes: [[u16; 6]; 3],
}

impl Debouncer {
    /// Makes a debouncer before its first scan: every key is up.
    pub fn new() -> Debouncer {
        Debouncer {
            matrix: Matrix::new(),
            latest: Scan::NONE,
            planes: [[0; 6]; 3],
        }
    }

    /// Takes one more scan, one millisecond after the last, and answers which keys it released and
    /// which it pressed.
    pub fn feed(&mut self, scan: Scan) -> Edges {
        self.planes = self.counted(&scan);
        self.latest = scan;
        let flips = self.matrix.feed(&scan);
        Edges {
            released: self.matrix.released(&flips).scan(),
            pressed: self.matrix.pressed(&flips).scan(),
        }
    }

    /// The planes after one more scan.
    fn counted(&self, scan: &Scan) -> [[u16; 6]; 3] {
        let first = self.pair(0, scan);
        let second = self.pair(1, scan);
        let third = self.pair(2, scan);
        [
            parts(first.ones, second.ones, third.ones),
            parts(first.twos, second.twos, third.twos),
            parts(first.fours, second.fours, third.fours),
        ]
    }

    /// The counts of a pair of rows after one more scan.
    fn pair(&self, pair: usize, scan: &Scan) -> Count {
        let [ones, twos, fours] = &self.planes;
        let count = Count {
            ones: joined(ones, pair),
            twos: joined(twos, pair),
            fours: joined(fours, pair),
        };
        let latest = joined(&self.latest.rows, pair);
        count.sampled(latest, joined(&scan.rows, pair))
    }

    /// Returns whether a key, one of 0 to 95, is down.
    pub(crate) fn is_down(&self, key: u8) -> bool {
        self.matrix.is_down(key)
    }

    /// Returns the planes of the counts: bit c of row r of plane p is bit p of how many of the latest
    /// samples of key 16 * r + c are equal, counted to five.
    pub fn planes(&self) -> &[[u16; 6]; 3] {
        &self.planes
    }
}
