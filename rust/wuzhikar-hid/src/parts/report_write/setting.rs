// Exported from crates/report_write/src/setting.rt by bin/export-rust. Edit that file instead.
//! What is asked for, and why it is refused.

use crate::parts::field_values::Asked;
use crate::rattle::alloc::AllocError;

/// Which control of a report is set.
#[derive(Clone, Copy, Debug, PartialEq, Eq)]
pub enum Target {
    /// A usage, with its page in the high half. `place` counts what in the report has it, in order, from 0: each place of a
    /// Variable field, and each Array whose list has it.
    Usage {
        /// The usage.
        usage: u32,
        /// Which of those that have it.
        place: usize,
    },
    /// A place of a field, by the field's place in the descriptor's.
    Field {
        /// The field.
        field: usize,
        /// The place in it.
        place: usize,
    },
}

/// A control of a report, and what it is set to.
#[derive(Clone, Copy, Debug, PartialEq, Eq)]
pub struct Setting {
    /// Which one.
    pub target: Target,
    /// To what.
    pub asked: Asked,
}

/// Why nothing is written. The first four are of the report: the first that holds is reported. The others but `Memory` are of a
/// setting, by its number from 0, and are told of the first one that is refused: of several the first in this order, but for a
/// usage of an Array, which is refused as `NoNull`, `OutOfRange` where it is set to neither 0 nor 1, `TooLarge`, `OutOfRange`,
/// `NoRoom` or `Twice`.
#[derive(Clone, Copy, Debug, PartialEq, Eq)]
pub enum WriteError {
    /// The descriptor has no such report.
    UnknownReport,
    /// The report that was given begins with another ID.
    OtherId,
    /// The report that was given is too short.
    Short,
    /// In a new report a place of this Array, by its place among the descriptor's fields, can't say that it names no usage.
    NoUnused(usize),
    /// The report does not have the usage, so many times, or the field or place.
    Unknown(usize),
    /// The place is set twice. One that a usage was taken out of is free, and may be set again.
    Twice(usize),
    /// A null, and the field has no Null State, or no value for it.
    NoNull(usize),
    /// The value does not fit into the bits.
    TooLarge(usize),
    /// The value is outside the logical extents, or is neither 0 nor 1 for a usage of an Array.
    OutOfRange(usize),
    /// Each place of the Array names another usage or is set, or none can say that it names no usage.
    NoRoom(usize),
    /// There was no memory.
    Memory,
}

impl core::fmt::Display for WriteError {
    fn fmt(&self, f: &mut core::fmt::Formatter<'_>) -> core::fmt::Result {
        match self {
            Self::UnknownReport => write!(f, "the descriptor has no such report"),
            Self::OtherId => write!(f, "the given report has another ID"),
            Self::Short => write!(f, "the given report is too short"),
            Self::NoUnused(_0) => write!(f, "the array of field {_0} can't be empty"),
            Self::Unknown(_0) => write!(f, "setting {_0}: the report has no such usage, field or place"),
            Self::Twice(_0) => write!(f, "setting {_0}: the place is set twice"),
            Self::NoNull(_0) => write!(f, "setting {_0}: the field has no null"),
            Self::TooLarge(_0) => write!(f, "setting {_0}: the value does not fit"),
            Self::OutOfRange(_0) => write!(f, "setting {_0}: the value is out of range"),
            Self::NoRoom(_0) => write!(f, "setting {_0}: the array has no room"),
            Self::Memory => write!(f, "out of memory"),
        }
    }
}

impl core::error::Error for WriteError {}

impl From<AllocError> for WriteError {
    fn from(_: AllocError) -> WriteError {
        WriteError::Memory
    }
}
