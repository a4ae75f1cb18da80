// Exported from crates/host_extract/src/error.rt by bin/export-rust. Edit that file instead.
//! Why a report is not read.

use crate::rattle::alloc::AllocError;

/// Why a report is not read. Where several hold, the first is reported.
#[derive(Clone, Copy, Debug, PartialEq, Eq)]
pub enum ExtractError {
    /// The report has no byte.
    Empty = 1,
    /// Report IDs are used, and no input report has the one that the report begins with.
    UnknownId = 2,
    /// The report is shorter than the input report that its descriptor declares.
    Short = 3,
    /// A growth was refused.
    Memory = 4,
}

impl core::fmt::Display for ExtractError {
    fn fmt(&self, f: &mut core::fmt::Formatter<'_>) -> core::fmt::Result {
        match self {
            Self::Empty => write!(f, "the report is empty"),
            Self::UnknownId => write!(f, "no input report has this ID"),
            Self::Short => write!(f, "the report is too short"),
            Self::Memory => write!(f, "out of memory"),
        }
    }
}

impl core::error::Error for ExtractError {}

impl ExtractError {
    /// Returns the number of the refusal, 1 to 4.
    pub fn number(self) -> u8 {
        self as u8
    }
}

impl From<AllocError> for ExtractError {
    fn from(_: AllocError) -> ExtractError {
        ExtractError::Memory
    }
}
