// Exported from crates/report_read/src/difference.rt by bin/export-rust. Edit that file instead.
//! The usages that are on in a report, and those in which two reports differ.

use crate::parts::report_read::error::ReadingError;
use crate::parts::report_read::reader::ReportReader;
use crate::parts::report_read::reading::Reading;
use crate::parts::report_read::value::Value;
use wuzhikar_reader::parts::descriptor_parse::{Descriptor, Kind};
use crate::parts::field_values::Within;
use crate::rattle::alloc::{AllocError, Global};

/// The usages in which two reports differ, each list rising, and each usage once.
#[derive(Debug)]
#[derive(Clone, Default, PartialEq, Eq)]
pub struct Changed {
    /// Those that are on in the later report alone.
    pub pressed: crate::rattle::Vec<u32>,
    /// Those that are on in the earlier report alone.
    pub released: crate::rattle::Vec<u32>,
}

/// The usages that are on in a report of a kind, rising, each once: those that Arrays name, and those of Variable fields
/// whose value isn't 0. Values outside the logical extents count for none, nulls among them, and a usage whose low half is 0
/// is none.
///
/// 07:01 to 07:03 of a keyboard (ErrorRollOver, POSTFail, ErrorUndefined) are reported as any usage. They are no keys: a report
/// with one of them does not tell which keys are down.
///
/// The errors are those of [`ReportReader::read`], and then `Memory`, where a usage is on.
pub fn pressed(
    alloc: Global,
    reader: &ReportReader,
    kind: Kind,
    report: &[u8],
) -> Result<crate::rattle::Vec<u32>, ReadingError> {
    let reading = reader.read(kind, report)?;
    let mut usages = gather(alloc, reader.descriptor(), reading)?;
    make_rising(&mut usages);
    Ok(usages)
}

/// The usages in which two reports of a kind and ID differ.
///
/// The errors are those of [`ReportReader::read`] for the earlier report, and for the later one; then `OtherId` where they have
/// different IDs, and `Memory`, where a usage is on in one of them.
pub fn changes(
    alloc: Global,
    reader: &ReportReader,
    kind: Kind,
    before: &[u8],
    now: &[u8],
) -> Result<Changed, ReadingError> {
    let earlier = reader.read(kind, before)?;
    let later = reader.read(kind, now)?;
    if earlier.id() != later.id() {
        return Err(ReadingError::OtherId);
    }
    let were = pressed(alloc, reader, kind, before)?;
    let are = pressed(alloc, reader, kind, now)?;
    Ok(Changed {
        pressed: only_in(alloc, &are, &were)?,
        released: only_in(alloc, &were, &are)?,
    })
}

/// The usages that the values of a reading say are on, in their order.
fn gather(
    alloc: Global,
    descriptor: &Descriptor,
    reading: Reading<'_>,
) -> Result<crate::rattle::Vec<u32>, AllocError> {
    let mut usages = crate::rattle::vec::new(alloc);
    for value in reading {
        if let Some(usage) = usage_on(descriptor, &value) {
            usages.push_in(usage)?;
        }
    }
    Ok(usages)
}

/// The usage that a value says is on.
fn usage_on(descriptor: &Descriptor, value: &Value) -> Option<u32> {
    if counts(value.within) && (is_of_array(descriptor, value) || value.raw != 0) {
        control(value.usage)
    } else {
        None
    }
}

/// Whether a value is within the logical extents.
fn counts(within: Within) -> bool {
    match within {
        Within::Range => true,
        Within::Null | Within::Out => false,
    }
}

/// Whether the field of a value is an Array.
fn is_of_array(descriptor: &Descriptor, value: &Value) -> bool {
    match descriptor.fields().get(value.field) {
        Some(field) => field.array,
        None => false,
    }
}

/// A usage whose low half is not 0.
fn control(usage: Option<u32>) -> Option<u32> {
    match usage {
        Some(usage) if usage % 0x1_0000 != 0 => Some(usage),
        Some(_) | None => None,
    }
}

/// Sorts usages, and drops repeats.
fn make_rising(usages: &mut crate::rattle::Vec<u32>) {
    usages.sort_unstable();
    usages.dedup();
}

/// The usages that only the first of two lists has, which both rise.
fn only_in(alloc: Global, these: &[u32], those: &[u32]) -> Result<crate::rattle::Vec<u32>, AllocError> {
    let mut only = crate::rattle::vec::new(alloc);
    for usage in these {
        if !is_listed(those, *usage) {
            only.push_in(*usage)?;
        }
    }
    Ok(only)
}

/// Whether a rising list has a usage.
fn is_listed(usages: &[u32], usage: u32) -> bool {
    usages.binary_search(&usage).is_ok()
}

#[allow(unused_imports)]
use crate::rattle::memory::*;
