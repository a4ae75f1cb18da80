// Exported from crates/parse_lines/src/fault.rt by bin/export-rust. Edit that file instead.
//! Why lines are not printed.

use wuzhikar_reader::parts::descriptor_parse::ParseError;
use crate::parts::text_io::ReadError;

/// Why `parse_text` or `describe` ends before its last line.
#[derive(Clone, Copy, Debug, PartialEq, Eq)]
pub enum LinesError {
    /// The text has a character that is no hex digit and no blank, or an odd number of digits.
    BadHexText,
    /// The report descriptor has a fault, other than want of memory.
    Refused(ParseError),
    /// The text is longer than 1,048,576 bytes.
    TooLong,
    /// The reader failed, or was interrupted.
    Input,
    /// The writer failed, or took no byte. Nothing was printed after that.
    Output,
    /// A request for memory was refused.
    Memory,
}

impl core::fmt::Display for LinesError {
    fn fmt(&self, f: &mut core::fmt::Formatter<'_>) -> core::fmt::Result {
        match self {
            Self::BadHexText => write!(f, "the text is not pairs of hex digits"),
            Self::Refused(_0) => write!(f, "the report descriptor is refused: {_0}"),
            Self::TooLong => write!(f, "the text is longer than 1048576 bytes"),
            Self::Input => write!(f, "the text can't be read"),
            Self::Output => write!(f, "the output can't be written"),
            Self::Memory => write!(f, "out of memory"),
        }
    }
}

impl core::error::Error for LinesError {}

impl From<ReadError> for LinesError {
    fn from(error: ReadError) -> LinesError {
        match error {
            ReadError::TooLong => LinesError::TooLong,
            ReadError::Input => LinesError::Input,
            ReadError::Memory => LinesError::Memory,
        }
    }
}
