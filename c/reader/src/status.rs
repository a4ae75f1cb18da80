// SPDX-License-Identifier: MIT OR Apache-2.0
//! What a call came to.

use wuzhikar_hid::{NoPhysical, NoUnit, NoValue, ReadingError, WriteError};
use wuzhikar_reader::{AllocError, ExtractError};

/// What a call came to, with the numbers of `hid_reader.h`. Every status but `Ok` is a refusal.
#[repr(i32)]
#[derive(Clone, Copy, Debug, PartialEq, Eq)]
pub enum Status {
    Ok = 0,
    /// A pointer is null that may not be.
    Null = 1,
    /// A length that nothing in memory has.
    Length = 2,
    /// The number is no handle that was given.
    NoHandle = 3,
    /// The handle was closed.
    Closed = 4,
    /// The handle is of another kind, as that of a parser where a reader is wanted.
    WrongKind = 5,
    /// As many handles are open as there can be.
    Full = 6,
    NoMemory = 7,
    /// The text has a fault.
    Fault = 8,
    /// No such field, place or report.
    Absent = 9,
    /// The report has no byte.
    EmptyReport = 10,
    /// No input report has this ID.
    UnknownId = 11,
    /// The report is shorter than its descriptor says.
    ShortReport = 12,
    /// The descriptor has no such report.
    UnknownReport = 13,
    /// The report that was given begins with another ID.
    OtherId = 14,
    /// In a new report an array can't say that it names no usage.
    NoUnused = 15,
    /// The report does not have this usage, or field and place.
    UnknownControl = 16,
    /// A place is set twice.
    Twice = 17,
    /// A null where there is none.
    NoNull = 18,
    /// A number that does not fit.
    TooLarge = 19,
    /// A value outside the logical extents.
    OutOfRange = 20,
    /// An array has no place left.
    NoRoom = 21,
    /// The logical extents are equal.
    EqualLimits = 22,
    /// The Logical Minimum is over the Logical Maximum.
    InvertedLimits = 23,
    /// The highest digit of a unit is not 0.
    ReservedDigit = 24,
    /// A unit has exponents, and no system.
    NoSystem = 25,
    /// The system of a unit is reserved.
    ReservedSystem = 26,
    /// The system of a unit is the vendor's.
    VendorSystem = 27,
    /// What is read and what is written share memory.
    Overlap = 28,
    /// No value of the field is just so much in its unit.
    NoStep = 29,
}

impl From<AllocError> for Status {
    fn from(_: AllocError) -> Status {
        Status::NoMemory
    }
}

impl From<ExtractError> for Status {
    fn from(error: ExtractError) -> Status {
        match error {
            ExtractError::Empty => Status::EmptyReport,
            ExtractError::UnknownId => Status::UnknownId,
            ExtractError::Short => Status::ShortReport,
            ExtractError::Memory => Status::NoMemory,
        }
    }
}

impl From<ReadingError> for Status {
    fn from(error: ReadingError) -> Status {
        match error {
            ReadingError::Empty => Status::EmptyReport,
            ReadingError::UnknownReport => Status::UnknownReport,
            ReadingError::Short => Status::ShortReport,
            ReadingError::OtherId => Status::OtherId,
            ReadingError::NoSuchField => Status::Absent,
            ReadingError::Memory => Status::NoMemory,
        }
    }
}

impl From<NoPhysical> for Status {
    fn from(why: NoPhysical) -> Status {
        match why {
            NoPhysical::EqualLimits => Status::EqualLimits,
            NoPhysical::InvertedLimits => Status::InvertedLimits,
            NoPhysical::LargeExtents => Status::TooLarge,
        }
    }
}

impl From<NoValue> for Status {
    fn from(why: NoValue) -> Status {
        match why {
            NoValue::NoPhysical(why) => why.into(),
            NoValue::NoStep => Status::NoStep,
        }
    }
}

impl From<NoUnit> for Status {
    fn from(why: NoUnit) -> Status {
        match why {
            NoUnit::ReservedDigit => Status::ReservedDigit,
            NoUnit::NoSystem => Status::NoSystem,
            NoUnit::ReservedSystem => Status::ReservedSystem,
            NoUnit::Vendor => Status::VendorSystem,
        }
    }
}

impl Status {
    /// Returns the status of a report that is not written, and the number of the setting or field at fault.
    pub fn from_write_error(error: WriteError) -> (Status, Option<usize>) {
        match error {
            WriteError::UnknownReport => (Status::UnknownReport, None),
            WriteError::Short => (Status::ShortReport, None),
            WriteError::OtherId => (Status::OtherId, None),
            WriteError::NoUnused(field) => (Status::NoUnused, Some(field)),
            WriteError::Unknown(number) => (Status::UnknownControl, Some(number)),
            WriteError::Twice(number) => (Status::Twice, Some(number)),
            WriteError::NoNull(number) => (Status::NoNull, Some(number)),
            WriteError::TooLarge(number) => (Status::TooLarge, Some(number)),
            WriteError::OutOfRange(number) => (Status::OutOfRange, Some(number)),
            WriteError::NoRoom(number) => (Status::NoRoom, Some(number)),
            WriteError::Memory => (Status::NoMemory, None),
        }
    }
}
