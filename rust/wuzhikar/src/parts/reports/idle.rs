// Exported from crates/reports/src/idle.rt by bin/export-rust. Edit that file instead.
//! An idle value, and the age that it allows.

/// An idle value in units of 4 ms, 0 for no repeats.
#[derive(Debug)]
pub(crate) struct Idle {
    value: u8,
    /// The greatest age at which a report need not be sent again: 65,535, which no age is above, for no
    /// repeats.
    limit: u16,
}

impl Idle {
    /// Zeros, where memory waits for a keyboard to start there.
    pub(crate) const UNSTARTED: Self = Idle { value: 0, limit: 0 };
}

impl Idle {
    /// This value.
    pub(crate) fn of(value: u8) -> Idle {
        Idle {
            value,
            limit: (4 * u16::from(value)).wrapping_sub(1),
        }
    }

    /// The value.
    pub(crate) fn value(&self) -> u8 {
        self.value
    }

    /// Whether a report of this age, in scans counted to 65,535, is to be sent again: the value is not 0,
    /// and as long has passed.
    pub(crate) fn has_passed(&self, age: u16) -> bool {
        age > self.limit
    }
}
