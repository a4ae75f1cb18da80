// Exported from crates/debounce/src/lib.rt by bin/export-rust. Edit that file instead.
//! Debouncing of a matrix of 96 keys: scans in, edges and the keys that are down out. A contact
//! bounces when it closes or opens, so a key takes a new value only after five equal samples in a
//! row. One scan is one millisecond.
//!
//! A `Matrix` keeps of each key whether it is down, and how many of the latest samples say otherwise, 32
//! keys to a word. The guarantee is that a key has the value of the newest five equal samples in a row,
//! and that an edge is a change of it. `key_reports` calls it at each scan. A `Debouncer` is the same by
//! scans, and also counts the latest equal samples.

pub mod debouncer;
pub mod keys;
pub mod matrix;
mod row;
pub mod set;

pub use debouncer::{Debouncer, Edges};
pub use keys::Keys;
pub use matrix::Matrix;
pub use set::KeySet;

/// One look at the matrix, six rows of 16 keys: bit c of row r is set where key 16 * r + c is
/// pressed.
#[derive(Clone, Copy, Debug, PartialEq, Eq)]
pub struct Scan {
    pub rows: [u16; 6],
}

impl Scan {
    /// Zeros, where memory waits for a keyboard to start there.
    pub(crate) const UNSTARTED: Self = Scan { rows: [0; 6] };
}

impl Scan {
    /// A scan with no key pressed.
    pub const NONE: Scan = Scan { rows: [0; 6] };

    /// Returns whether this scan has a key, one of 0 to 95.
    pub(crate) fn has(&self, key: u8) -> bool {
        (self.rows[key as usize / 16] >> (key % 16)) & 1 == 1
    }

    /// Returns the numbers of its keys, in rising order, at most 96.
    pub fn keys(&self) -> Keys {
        KeySet::of(self).keys()
    }

    /// Returns this scan, with a key, one of 0 to 95, too where `on` says so.
    pub(crate) fn with(self, key: u8, on: bool) -> Scan {
        if !on {
            return self;
        }
        let mut rows = self.rows;
        add_key(&mut rows, key);
        Scan { rows }
    }
}

/// Sets the bit of a key.
fn add_key(rows: &mut [u16], key: u8) {
    rows[key as usize / 16] |= 1 << (key % 16);
}
