// Exported from crates/script/src/fault.rt by bin/export-rust. Edit that file instead.
//! Why a script is refused.

/// What is wrong with a line of a script. A line is checked in this order: its first word, the
/// number of its words, and then each word from the left.
#[derive(Clone, Copy, Debug, PartialEq, Eq)]
pub enum LineFault {
    /// The first word begins no line of the language.
    UnknownWord,
    /// There are more or fewer words than this line takes.
    WrongWords,
    /// A word is no decimal number of 1 to 5 digits, or its number is out of its range.
    BadNumber,
    /// A word is not the hex digits of as many bytes as this line takes.
    BadHex,
}

impl core::fmt::Display for LineFault {
    fn fmt(&self, f: &mut core::fmt::Formatter<'_>) -> core::fmt::Result {
        match self {
            Self::UnknownWord => write!(f, "unknown word"),
            Self::WrongWords => write!(f, "wrong words"),
            Self::BadNumber => write!(f, "bad number"),
            Self::BadHex => write!(f, "bad hex"),
        }
    }
}

impl core::error::Error for LineFault {}

/// Why the lines of a script are refused.
#[derive(Clone, Copy, Debug, PartialEq, Eq)]
pub enum ScriptError {
    /// A line is not of the language. Lines are counted from 1.
    Line { line: usize, fault: LineFault },
    /// A request for memory was refused.
    Memory,
}

impl core::fmt::Display for ScriptError {
    fn fmt(&self, f: &mut core::fmt::Formatter<'_>) -> core::fmt::Result {
        match self {
            Self::Line { line, fault } => write!(f, "line {line}: {fault}"),
            Self::Memory => write!(f, "out of memory"),
        }
    }
}

impl core::error::Error for ScriptError {}
