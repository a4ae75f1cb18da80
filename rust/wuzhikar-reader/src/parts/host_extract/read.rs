// Exported from crates/host_extract/src/read.rt by bin/export-rust. Edit that file instead.
//! A report as the usages that it names.

use crate::parts::host_extract::error::ExtractError;
use crate::parts::host_extract::places::read_field;
use crate::parts::host_extract::reading::Found;
use crate::parts::descriptor_parse::{Descriptor, Kind};
use crate::rattle::alloc::{AllocError, Global};

/// Reads an input report: the usages that it names, with their values, in the order of the fields and their places.
///
/// A place of a variable field gives its usage with its value, 0 too; a place of an array the usage that its value
/// names, with the value 1. A usage whose low half is 0 is none. Bytes after the report are ignored.
///
/// The errors, in this order: `Empty` where there is no byte; `UnknownId` where report IDs are used and no input report
/// has the first byte as its ID; `Short` where the report is shorter than its descriptor says; `Memory` where a growth
/// was refused.
pub fn extract(
    alloc: Global,
    descriptor: &Descriptor,
    report: &[u8],
) -> Result<crate::rattle::Vec<Found>, ExtractError> {
    if let Some(error) = refuse(descriptor, report) {
        return Err(error);
    }
    let (id, bytes) = split_id(descriptor, report);
    Ok(read_fields(alloc, descriptor, id, bytes)?)
}

/// Why a report is not read, if it is not.
fn refuse(descriptor: &Descriptor, report: &[u8]) -> Option<ExtractError> {
    if report.is_empty() {
        return Some(ExtractError::Empty);
    }
    let (id, _) = split_id(descriptor, report);
    match descriptor.report_len(Kind::Input, id) {
        Some(len) if report.len() < len => Some(ExtractError::Short),
        None if descriptor.uses_ids() => Some(ExtractError::UnknownId),
        _ => None,
    }
}

/// The ID of a report, 0 where none is used, and the bytes after it.
fn split_id<'a>(descriptor: &Descriptor, report: &'a [u8]) -> (u8, &'a [u8]) {
    if !descriptor.uses_ids() {
        return (0, report);
    }
    match report {
        [id, bytes @ ..] => (*id, bytes),
        [] => (0, report),
    }
}

/// Reads the fields of an input report, whose bytes after its ID are these.
fn read_fields(
    alloc: Global,
    descriptor: &Descriptor,
    id: u8,
    bytes: &[u8],
) -> Result<crate::rattle::Vec<Found>, AllocError> {
    let mut out = crate::rattle::vec::with_capacity(alloc, places(descriptor, id))?;
    for place in descriptor.report(Kind::Input, id) {
        read_field(&mut out, &place, bytes)?;
    }
    Ok(out)
}

/// How many places the fields of an input report have together.
fn places(descriptor: &Descriptor, id: u8) -> usize {
    let mut places = 0;
    for declared in descriptor.report(Kind::Input, id) {
        places += declared.field.count as usize;
    }
    places
}
