// Exported from crates/report_read/src/error.rt by bin/export-rust. Edit that file instead.
//! Why a report is not read.

use crate::rattle::alloc::AllocError;

/// Why a report is not read. Where several hold, the first is reported.
#[derive(Clone, Copy, Debug, PartialEq, Eq)]
pub enum ReadingError {
    /// The report has no byte.
    Empty,
    /// There is no report of this kind with the ID that it begins with, or none of this kind where no IDs are used.
    UnknownReport,
    /// It is shorter than the descriptor declares.
    Short,
    /// Two reports that are compared have different IDs.
    OtherId,
    /// It has no such field, or the field is not of Buffered Bytes.
    NoSuchField,
    /// There was no memory.
    Memory,
}

impl core::fmt::Display for ReadingError {
    fn fmt(&self, f: &mut core::fmt::Formatter<'_>) -> core::fmt::Result {
        match self {
            Self::Empty => write!(f, "the report is empty"),
            Self::UnknownReport => write!(f, "the descriptor has no such report"),
            Self::Short => write!(f, "the report is too short"),
            Self::OtherId => write!(f, "the two reports have different IDs"),
            Self::NoSuchField => write!(f, "the report has no such field of Buffered Bytes"),
            Self::Memory => write!(f, "out of memory"),
        }
    }
}

impl core::error::Error for ReadingError {}

impl From<AllocError> for ReadingError {
    fn from(_: AllocError) -> ReadingError {
        ReadingError::Memory
    }
}
