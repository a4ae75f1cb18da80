// SPDX-License-Identifier: MIT OR Apache-2.0
//! The calls of `hid_reader.h`, which says what each one takes, gives and refuses.
//!
//! A call looks at its pointers and lengths, then at its handle, and writes once nothing is left to be refused.

use crate::edge::{Input, Output, Outputs};
use crate::handles::{Entry, Error, TABLE, both, kind_of, number_of, tell, told, with_descriptor};
use crate::names;
use crate::status::Status;
use core::ffi::c_char;
use wuzhikar_reader::{Field, Found, Parser, extract, parse, pressed};

/// `hidr_field`
#[repr(C)]
#[derive(Clone, Copy)]
pub struct FieldOut {
    bit: u64,
    min: i64,
    max: i64,
    count: u16,
    kind: u8,
    id: u8,
    size: u8,
    array: u8,
}

/// `hidr_range`
#[repr(C)]
#[derive(Clone, Copy)]
pub struct Range {
    first: u32,
    last: u32,
}

/// `hidr_found`
#[repr(C)]
#[derive(Clone, Copy)]
pub struct FoundOut {
    value: i64,
    usage: u32,
}

#[unsafe(no_mangle)]
pub extern "C" fn hidr_parse(text: Input, length: usize, descriptor: Output<u64>, error: Output<Error>) -> Status {
    told(|| {
        let descriptor = descriptor.place()?;
        let parsed = parse(text.bytes(length)?).map_err(|found| tell(found, error.place_if_any()))?;
        descriptor.put(TABLE.open(Entry::Descriptor(parsed))?);
        Ok(())
    })
}

#[unsafe(no_mangle)]
pub extern "C" fn hidr_parser_open(parser: Output<u64>) -> Status {
    told(|| {
        let parser = parser.place()?;
        parser.put(TABLE.open(Entry::Parser(Parser::default()))?);
        Ok(())
    })
}

#[unsafe(no_mangle)]
pub extern "C" fn hidr_parser_feed(parser: u64, piece: Input, length: usize, error: Output<Error>) -> Status {
    told(|| {
        let piece = piece.bytes(length)?;
        TABLE.with(parser, |entry| match entry {
            Entry::Parser(parser) => parser.feed(piece).map_err(|found| tell(found, error.place_if_any())),
            Entry::Refused(found) => Err(tell(*found, error.place_if_any())),
            Entry::Descriptor(_) | Entry::Reader(_) => Err(Status::WrongKind),
        })
    })
}

#[unsafe(no_mangle)]
pub extern "C" fn hidr_parser_finish(parser: u64, descriptor: Output<u64>, error: Output<Error>) -> Status {
    told(|| {
        let descriptor = descriptor.place()?;
        descriptor.put(TABLE.renew(parser, |entry| {
            let refused = match entry {
                Entry::Parser(parser) => match parser.finish() {
                    Ok(parsed) => return (Entry::Descriptor(parsed), Ok(())),
                    Err(found) => found,
                },
                Entry::Refused(found) => found,
                Entry::Descriptor(_) | Entry::Reader(_) => return (entry, Err(Status::WrongKind)),
            };
            (Entry::Refused(refused), Err(tell(refused, error.place_if_any())))
        })?);
        Ok(())
    })
}

#[unsafe(no_mangle)]
pub extern "C" fn hidr_close(handle: u64) -> Status {
    told(|| TABLE.close(handle).map(drop))
}

#[unsafe(no_mangle)]
pub extern "C" fn hidr_field_count(descriptor: u64, count: Output<usize>) -> Status {
    told(|| {
        let count = count.place()?;
        count.put(with_descriptor(descriptor, |descriptor| Ok(descriptor.fields().len()))?);
        Ok(())
    })
}

#[unsafe(no_mangle)]
pub extern "C" fn hidr_field_at(descriptor: u64, field: usize, into: Output<FieldOut>) -> Status {
    told(|| {
        let into = into.place()?;
        into.put(with_descriptor(descriptor, |descriptor| {
            descriptor.fields().get(field).map(FieldOut::from).ok_or(Status::Absent)
        })?);
        Ok(())
    })
}

#[unsafe(no_mangle)]
pub extern "C" fn hidr_ranges(
    descriptor: u64,
    field: usize,
    into: Outputs<Range>,
    room: usize,
    count: Output<usize>,
) -> Status {
    told(|| {
        let (count, into) = (count.place()?, into.places(room)?);
        with_descriptor(descriptor, |descriptor| {
            if field >= descriptor.fields().len() {
                return Err(Status::Absent);
            }
            let ranges = descriptor.ranges(field);
            into.put(ranges.iter().map(|&(first, last)| Range { first, last }));
            count.put(ranges.len());
            Ok(())
        })
    })
}

#[unsafe(no_mangle)]
pub extern "C" fn hidr_usage_at(descriptor: u64, field: usize, place: usize, usage: Output<u32>) -> Status {
    told(|| {
        let usage = usage.place()?;
        usage.put(with_descriptor(descriptor, |descriptor| descriptor.usage(field, place).ok_or(Status::Absent))?);
        Ok(())
    })
}

#[unsafe(no_mangle)]
pub extern "C" fn hidr_uses_ids(descriptor: u64, uses: Output<u8>) -> Status {
    told(|| {
        let uses = uses.place()?;
        uses.put(with_descriptor(descriptor, |descriptor| Ok(descriptor.uses_ids().into()))?);
        Ok(())
    })
}

#[unsafe(no_mangle)]
pub extern "C" fn hidr_report_length(descriptor: u64, kind: u8, id: u8, bytes: Output<usize>) -> Status {
    told(|| {
        let bytes = bytes.place()?;
        bytes.put(with_descriptor(descriptor, |descriptor| {
            kind_of(kind).and_then(|kind| descriptor.report_len(kind, id)).ok_or(Status::Absent)
        })?);
        Ok(())
    })
}

#[unsafe(no_mangle)]
pub extern "C" fn hidr_extract(
    descriptor: u64,
    report: Input,
    length: usize,
    into: Outputs<FoundOut>,
    room: usize,
    count: Output<usize>,
) -> Status {
    told(|| {
        let count = count.place()?;
        let (into, report) = both(into.places(room), report.bytes(length))?;
        let found = with_descriptor(descriptor, |descriptor| Ok(extract(descriptor, report)?))?;
        count.put(found.len());
        into.put(found.iter().map(|&Found { usage, value }| FoundOut { value, usage }));
        Ok(())
    })
}

#[unsafe(no_mangle)]
pub extern "C" fn hidr_pressed(
    descriptor: u64,
    report: Input,
    length: usize,
    into: Outputs<u32>,
    room: usize,
    count: Output<usize>,
) -> Status {
    told(|| {
        let count = count.place()?;
        let (into, report) = both(into.places(room), report.bytes(length))?;
        let on = with_descriptor(descriptor, |descriptor| Ok(pressed(&extract(descriptor, report)?)?))?;
        count.put(on.len());
        into.put(on.iter().copied());
        Ok(())
    })
}

#[unsafe(no_mangle)]
pub extern "C" fn hidr_fault_name(fault: u32) -> *const c_char {
    names::fault_name(fault).as_ptr()
}

#[unsafe(no_mangle)]
pub extern "C" fn hidr_status_name(status: i32) -> *const c_char {
    names::status_name(status).as_ptr()
}

impl Range {
    /// The usages or numbers from one to another.
    pub fn new(first: u32, last: u32) -> Range {
        Range { first, last }
    }
}

impl From<&Field> for FieldOut {
    fn from(field: &Field) -> FieldOut {
        let kind = number_of(field.kind);
        FieldOut {
            bit: field.bit,
            min: field.min,
            max: field.max,
            count: field.count,
            kind,
            id: field.id,
            size: field.size,
            array: field.array.into(),
        }
    }
}
