// Exported from crates/kbsim/src/fault.rt by bin/export-rust. Edit that file instead.
//! Why a script is not run to its end.

use crate::parts::script::LineFault;
use crate::parts::text_io::ReadError;

/// Why a run ends before the end of its script.
#[derive(Clone, Copy, Debug, PartialEq, Eq)]
pub enum RunError {
    /// The number of pages is not 2 to 8. Nothing was read.
    PageCount,
    /// A line is not of the language. Lines are counted from 1. No event was run.
    Line { line: usize, fault: LineFault },
    /// The script is longer than 1,048,576 bytes.
    TooLong,
    /// The reader of the script or of the image failed, or was interrupted.
    Input,
    /// The image is not 2 to 8 whole pages of 4,096 bytes. No event was run.
    Image,
    /// The writer failed, or took no byte. Nothing was printed after that.
    Output,
    /// A request for memory was refused.
    Memory,
}

impl core::fmt::Display for RunError {
    fn fmt(&self, f: &mut core::fmt::Formatter<'_>) -> core::fmt::Result {
        match self {
            Self::PageCount => write!(f, "the flash has 2 to 8 pages"),
            Self::Line { line, fault } => write!(f, "line {line}: {fault}"),
            Self::TooLong => write!(f, "the script is longer than 1048576 bytes"),
            Self::Input => write!(f, "the input can't be read"),
            Self::Image => write!(f, "the image is not 2 to 8 pages of 4096 bytes"),
            Self::Output => write!(f, "the output can't be written"),
            Self::Memory => write!(f, "out of memory"),
        }
    }
}

impl core::error::Error for RunError {}

impl From<ReadError> for RunError {
    fn from(error: ReadError) -> RunError {
        match error {
            ReadError::TooLong => RunError::TooLong,
            ReadError::Input => RunError::Input,
            ReadError::Memory => RunError::Memory,
        }
    }
}
