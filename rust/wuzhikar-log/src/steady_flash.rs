//! The texts of a steady flash's refusals. Written by hand.

#[cfg(test)]
mod tests;

use crate::parts::steady_flash::{MountError, Unmounted};

impl core::fmt::Display for MountError {
    fn fmt(&self, f: &mut core::fmt::Formatter<'_>) -> core::fmt::Result {
        f.write_str(match self {
            MountError::PageCount => "a steady flash has 3 to 9 pages",
            MountError::Triples => "a page of a steady flash has 8 to 80 triples of marks",
            MountError::Unformatted => "the flash is not formatted",
            MountError::Damaged => "a page of the flash is missing",
            MountError::OtherGeometry => "the flash has pages of another geometry",
            MountError::OutOfMarks => "a page of the flash has no marks left",
            MountError::Worn => "a page of the flash has come to its last numbers",
            MountError::Fault => "the flash failed again and again",
            MountError::Unreadable => "the flash could not be read",
        })
    }
}

impl core::error::Error for MountError {}

impl<F> core::fmt::Display for Unmounted<F> {
    fn fmt(&self, f: &mut core::fmt::Formatter<'_>) -> core::fmt::Result {
        self.why.fmt(f)
    }
}

impl<F: core::fmt::Debug> core::error::Error for Unmounted<F> {}
