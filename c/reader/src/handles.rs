// SPDX-License-Identifier: MIT OR Apache-2.0
//! What handles name, and what all calls share.

use crate::edge::{Output, Outputs, Place, Places};
use crate::status::Status;
use crate::table::Table;
use wuzhikar_hid::Reader;
use wuzhikar_reader::{Descriptor, Kind, ParseError, ParseFault, Parser};

/// As many handles as may be open at once: `HIDR_HANDLES`.
const HANDLES: usize = 256;

pub static TABLE: Table<Entry, HANDLES> = Table::new();

/// What a handle names.
#[allow(clippy::large_enum_variant)] // it lies in the table itself, so that it needs no other memory
pub enum Entry {
    Parser(Parser),
    /// A parser that has ended with a fault, which it answers again.
    Refused(ParseError),
    Descriptor(Descriptor),
    Reader(Reader),
}

/// `hidr_error`
#[repr(C)]
#[derive(Clone, Copy)]
pub struct Error {
    offset: u64,
    fault: u32,
}

impl From<ParseError> for Error {
    fn from(error: ParseError) -> Error {
        Error { offset: error.offset as u64, fault: error.fault.number().into() }
    }
}

/// The kind of reports with this number.
pub fn kind_of(number: u8) -> Option<Kind> {
    [Kind::Input, Kind::Output, Kind::Feature].get(usize::from(number)).copied()
}

/// The kind with this number of a report that is given.
pub fn kind_of_report(number: u8, report: &[u8]) -> Result<Kind, Status> {
    kind_of(number).ok_or(if report.is_empty() { Status::EmptyReport } else { Status::UnknownReport })
}

/// The number of a kind of reports.
pub fn number_of(kind: Kind) -> u8 {
    match kind {
        Kind::Input => 0,
        Kind::Output => 1,
        Kind::Feature => 2,
    }
}

/// Both, or why not: that a pointer is null is told before that a length is wrong.
pub fn both<A, B>(one: Result<A, Status>, other: Result<B, Status>) -> Result<(A, B), Status> {
    match (one, other) {
        (Ok(one), Ok(other)) => Ok((one, other)),
        (Err(Status::Null), _) | (_, Err(Status::Null)) => Err(Status::Null),
        (Err(status), _) | (_, Err(status)) => Err(status),
    }
}

/// The status of what a call came to.
pub fn told(call: impl FnOnce() -> Result<(), Status>) -> Status {
    match call() {
        Ok(()) => Status::Ok,
        Err(status) => status,
    }
}

/// Makes a call on the descriptor of a handle, which may be that of a reader.
pub fn with_descriptor<R>(handle: u64, call: impl FnOnce(&Descriptor) -> Result<R, Status>) -> Result<R, Status> {
    TABLE.with(handle, |entry| match entry {
        Entry::Descriptor(descriptor) => call(descriptor),
        Entry::Reader(reader) => call(reader.descriptor()),
        Entry::Parser(_) | Entry::Refused(_) => Err(Status::WrongKind),
    })
}

/// Makes a call on the reader of a handle.
pub fn with_reader<R>(handle: u64, call: impl FnOnce(&Reader) -> Result<R, Status>) -> Result<R, Status> {
    TABLE.with(handle, |entry| match entry {
        Entry::Reader(reader) => call(reader),
        Entry::Parser(_) | Entry::Refused(_) | Entry::Descriptor(_) => Err(Status::WrongKind),
    })
}

/// Writes to the caller's memory what a call makes of a reader.
pub fn put_from_reader<R: Copy>(reader: u64, into: Output<R>, make: impl FnOnce(&Reader) -> Result<R, Status>) -> Status {
    told(|| {
        let into = into.place()?;
        into.put(with_reader(reader, make)?);
        Ok(())
    })
}

/// Puts what a call has of a reader into the places for it, and how many there are.
pub fn put_list<T: Copy>(
    reader: u64,
    (into, room, count): (Outputs<T>, usize, Output<usize>),
    put: impl FnOnce(&Reader, Places<T>) -> Result<usize, Status>,
) -> Status {
    told(|| {
        let (count, into) = (count.place()?, into.places(room)?);
        count.put(with_reader(reader, |reader| put(reader, into))?);
        Ok(())
    })
}

/// The same of what a call makes of a reader and of bytes that are given.
pub fn put_made<T: Copy>(
    reader: u64,
    given: Result<&[u8], Status>,
    (into, room, count): (Outputs<T>, usize, Output<usize>),
    make: impl FnOnce(&Reader, &[u8]) -> Result<Vec<T>, Status>,
) -> Status {
    told(|| {
        let count = count.place()?;
        let (into, given) = both(into.places(room), given)?;
        let made = with_reader(reader, |reader| make(reader, given))?;
        count.put(into.put_all(made.into_iter()));
        Ok(())
    })
}

/// The status of a text that is refused, whose fault is written where there is a place for it.
pub fn tell(found: ParseError, error: Option<Place<Error>>) -> Status {
    if found.fault == ParseFault::Memory {
        return Status::NoMemory;
    }
    if let Some(place) = error {
        place.put(found.into());
    }
    Status::Fault
}
