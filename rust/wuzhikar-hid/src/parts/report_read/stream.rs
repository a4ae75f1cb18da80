// Exported from crates/report_read/src/stream.rt by bin/export-rust. Edit that file instead.
//! The bytes of fields of Buffered Bytes.

use crate::parts::report_read::error::ReadingError;
use crate::parts::report_read::reader::{ReportReader, split};
use wuzhikar_reader::parts::descriptor_parse::{Field, Kind};
use wuzhikar_reader::parts::host_extract::number_at;
use crate::rattle::alloc::{AllocError, Global};

/// The bytes of a field of Buffered Bytes in a report of a kind: the bits of its places one after the other, the last byte
/// filled up with 0. The field is given by its place in `Descriptor::fields`.
///
/// The errors are those of [`ReportReader::read`]; then `NoSuchField` where the report has no such field, or the field's item
/// does not say Buffered Bytes; then `Memory`.
pub fn buffered(
    alloc: Global,
    reader: &ReportReader,
    kind: Kind,
    report: &[u8],
    field: usize,
) -> Result<crate::rattle::Vec<u8>, ReadingError> {
    let found = buffered_field(reader, kind, report, field)?;
    let (_, bytes) = split(reader.descriptor(), report);
    Ok(bytes_of_field(alloc, &found, bytes)?)
}

/// The field with a number, if it is one of Buffered Bytes of a report.
fn buffered_field(
    reader: &ReportReader,
    kind: Kind,
    report: &[u8],
    number: usize,
) -> Result<Field, ReadingError> {
    match reader.read(kind, report) {
        Ok(reading) => match field_if(reader, kind, reading.id(), number) {
            Some(found) => Ok(found),
            None => Err(ReadingError::NoSuchField),
        },
        Err(error) => Err(error),
    }
}

/// The field with a number, if it is one of Buffered Bytes of the report of a kind and ID.
fn field_if(reader: &ReportReader, kind: Kind, id: u8, number: usize) -> Option<Field> {
    match reader.descriptor().fields().get(number) {
        Some(field) if is_of_report(field, kind, id) && says_buffered(reader, number) => Some(
            *field,
        ),
        Some(_) | None => None,
    }
}

/// Whether a field is of a report.
fn is_of_report(field: &Field, kind: Kind, id: u8) -> bool {
    field.kind == kind && field.id == id
}

/// Whether the item of a field says Buffered Bytes.
fn says_buffered(reader: &ReportReader, number: usize) -> bool {
    match reader.placed(number) {
        Some(placed) => placed.detail.is_buffered(),
        None => false,
    }
}

/// The bytes of a field.
fn bytes_of_field(alloc: Global, field: &Field, report: &[u8]) -> Result<crate::rattle::Vec<u8>, AllocError> {
    let bits = field.size as u64 * field.count as u64;
    let length = bits.div_ceil(8);
    let mut bytes = crate::rattle::vec::with_capacity(alloc, length as usize)?;
    for place in 0..length {
        bytes.push_in(byte_from(report, field.bit + 8 * place, bits - 8 * place))?;
    }
    Ok(bytes)
}

/// The number that eight bits make from one on, of which so many are left; those that aren't are 0.
fn byte_from(report: &[u8], bit: u64, left: u64) -> u8 {
    number_at(report, bit, left.min(8) as u8) as u8
}

#[allow(unused_imports)]
use crate::rattle::memory::*;
