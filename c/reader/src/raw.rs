// SPDX-License-Identifier: MIT OR Apache-2.0
//! The calls of `hid_reader.h` that write whatever the extents are, and that take all controls of one usage.

use crate::edge::{Input, Output, Outputs, Shared};
use crate::handles::{both, kind_of, kind_of_report, put_made, told, with_reader};
use crate::status::Status;
use crate::values::{bytes_at, write};
use wuzhikar_hid::{Asked, RawError, Setting, Target};

fn why(error: RawError) -> Status {
    match error {
        RawError::Report(error) => error.into(),
        RawError::NoPlace => Status::Absent,
        RawError::TooLarge => Status::TooLarge,
    }
}

#[unsafe(no_mangle)]
pub extern "C" fn hidr_put_raw(
    reader: u64,
    kind: u8,
    mut report: Shared,
    length: usize,
    field: usize,
    place: u16,
    number: u32,
) -> Status {
    told(|| {
        let report = report.bytes(length)?;
        with_reader(reader, |reader| {
            let kind = kind_of_report(kind, report)?;
            reader.put_raw(kind, report, field, place, number).map_err(why)
        })
    })
}

#[unsafe(no_mangle)]
pub extern "C" fn hidr_put_bytes(
    reader: u64,
    kind: u8,
    mut report: Shared,
    length: usize,
    field: usize,
    bytes: Input,
    count: usize,
) -> Status {
    told(|| {
        let (bytes, report) = both(bytes.owned(count), report.bytes(length))?;
        with_reader(reader, |reader| {
            let kind = kind_of_report(kind, report)?;
            reader.put_bytes(kind, report, field, &bytes).map_err(why)
        })
    })
}

#[unsafe(no_mangle)]
pub extern "C" fn hidr_raw_report(
    reader: u64,
    kind: u8,
    id: u8,
    bytes: Input,
    count: usize,
    into: Outputs<u8>,
    room: usize,
    length: Output<usize>,
) -> Status {
    put_made(reader, bytes.bytes(count), (into, room, length), |reader, bytes| {
        reader.raw_report(kind_of(kind).ok_or(Status::UnknownReport)?, id, bytes).map_err(why)
    })
}

#[unsafe(no_mangle)]
pub extern "C" fn hidr_read_all(
    reader: u64,
    kind: u8,
    report: Input,
    length: usize,
    usage: u32,
    into: Outputs<i64>,
    room: usize,
    count: Output<usize>,
) -> Status {
    put_made(reader, report.bytes(length), (into, room, count), |reader, report| {
        Ok(reader.read_all(kind_of_report(kind, report)?, report, usage)?)
    })
}

#[unsafe(no_mangle)]
#[allow(clippy::too_many_arguments)] // as C has them
pub extern "C" fn hidr_write_all(
    reader: u64,
    kind: u8,
    id: u8,
    usage: u32,
    values: Input,
    count: usize,
    onto: Input,
    onto_length: usize,
    into: Outputs<u8>,
    room: usize,
    length: Output<usize>,
    which: Output<usize>,
) -> Status {
    let read = |(place, bytes): (usize, &[u8])| Setting {
        target: Target::Usage { usage, place },
        asked: Asked::Value(i64::from_ne_bytes(bytes_at(bytes, 0))),
    };
    let values = (values, count, size_of::<i64>());
    write(reader, (kind, id), values, read, (onto, onto_length), (into, room, length), which)
}
