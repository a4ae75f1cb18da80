// Exported from crates/report_write/src/begin.rt by bin/export-rust. Edit that file instead.
//! Where a report begins.

use crate::parts::report_write::setting::WriteError;
use crate::rattle::alloc::{AllocError, Global};

/// Why nothing is written onto a report of at least `len` bytes that is given, if it is not.
pub(crate) fn refuse(uses_ids: bool, id: u8, len: usize, onto: Option<&[u8]>) -> Option<WriteError> {
    let given = onto?;
    if uses_ids && has_other_id(id, given) {
        Some(WriteError::OtherId)
    } else if given.len() < len {
        Some(WriteError::Short)
    } else {
        None
    }
}

/// Whether a report begins with another ID.
fn has_other_id(id: u8, given: &[u8]) -> bool {
    match given {
        [] => false,
        [first, ..] => *first != id,
    }
}

/// The bytes of a report after its ID.
pub(crate) fn after_id(uses_ids: bool, report: &[u8]) -> &[u8] {
    if !uses_ids {
        return report;
    }
    match report {
        [_, bytes @ ..] => bytes,
        [] => report,
    }
}

/// A copy of some bytes, with room for an ID.
pub(crate) fn copy_of(alloc: Global, bytes: &[u8]) -> Result<crate::rattle::Vec<u8>, AllocError> {
    let mut copy = crate::rattle::vec::with_capacity(alloc, bytes.len().saturating_add(1))?;
    copy.extend_in(bytes)?;
    Ok(copy)
}

/// So many bytes of 0, with room for an ID.
pub(crate) fn zeros(alloc: Global, count: usize) -> Result<crate::rattle::Vec<u8>, AllocError> {
    let mut bytes = crate::rattle::vec::with_capacity(alloc, count.saturating_add(1))?;
    for _ in 0..count {
        bytes.push_in(0)?;
    }
    Ok(bytes)
}

/// The report with these bytes after its ID.
pub(crate) fn with_id(uses_ids: bool, id: u8, bytes: crate::rattle::Vec<u8>) -> Result<crate::rattle::Vec<u8>, AllocError> {
    let mut bytes = bytes;
    if uses_ids {
        bytes.insert_in(0, id)?;
    }
    Ok(bytes)
}

#[allow(unused_imports)]
use crate::rattle::memory::*;
