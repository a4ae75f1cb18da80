// Exported from crates/report_write/src/fill.rt by bin/export-rust. Edit that file instead.
//! A new report.

use crate::parts::report_write::kept::{Kept, usages_of};
use crate::parts::report_write::setting::WriteError;
use crate::parts::report_write::unused::unused;
use wuzhikar_reader::parts::descriptor_parse::Descriptor;
use crate::parts::field_values::{fill_places, null_of};

/// Fills a new report: null places, and places of Arrays that name no usage.
pub(crate) fn fill(
    descriptor: &Descriptor,
    kept: &[Kept],
    bytes: &mut [u8],
) -> Result<(), WriteError> {
    for number in 0..kept.len() {
        fill_field(descriptor, &kept[number], bytes)?;
    }
    Ok(())
}

/// Fills the places of one field.
fn fill_field(descriptor: &Descriptor, kept: &Kept, bytes: &mut [u8]) -> Result<(), WriteError> {
    if kept.field.array {
        return match unused(&usages_of(descriptor, kept)) {
            None => Err(WriteError::NoUnused(kept.number)),
            Some(value) => {
                fill_places(&kept.field, bytes, value);
                Ok(())
            }
        };
    }
    if kept.null_state {
        if let Some(value) = null_of(&kept.field) {
            fill_places(&kept.field, bytes, value);
        }
    }
    Ok(())
}
