// Exported from crates/text_io/src/fault.rt by bin/export-rust. Edit that file instead.
//! Why a text is not read, or not printed.

/// Why not all of a text is read.
#[derive(Clone, Copy, Debug, PartialEq, Eq)]
pub enum ReadError {
    /// The reader gives more bytes than were asked for.
    TooLong,
    /// The reader failed, or was interrupted.
    Input,
    /// A request for memory was refused.
    Memory,
}

impl core::fmt::Display for ReadError {
    fn fmt(&self, f: &mut core::fmt::Formatter<'_>) -> core::fmt::Result {
        match self {
            Self::TooLong => write!(f, "the text is too long"),
            Self::Input => write!(f, "the text can't be read"),
            Self::Memory => write!(f, "out of memory"),
        }
    }
}

impl core::error::Error for ReadError {}

/// The writer failed, was interrupted, or took no byte.
#[derive(Clone, Copy, Debug, PartialEq, Eq)]
pub struct WriteError;

impl core::fmt::Display for WriteError {
    fn fmt(&self, f: &mut core::fmt::Formatter<'_>) -> core::fmt::Result {
        match self {
            Self => write!(f, "the output can't be written"),
        }
    }
}

impl core::error::Error for WriteError {}
