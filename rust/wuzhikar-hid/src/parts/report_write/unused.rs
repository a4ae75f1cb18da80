// Exported from crates/report_write/src/unused.rt by bin/export-rust. Edit that file instead.
//! The value by which a place of an Array says that it names no usage.

use wuzhikar_reader::parts::descriptor_parse::FieldUsages;
use crate::parts::field_values::{is_unused, null_of};

/// The value that is written where a place of an Array is to name no usage: 0 where it names none, else one outside the
/// logical extents, past the list, or of a usage whose low half is 0.
pub(crate) fn unused(declared: &FieldUsages<'_>) -> Option<i64> {
    if is_unused(declared, 0) {
        return Some(0);
    }
    if let Some(value) = null_of(&declared.field) {
        return Some(value);
    }
    let past = past_list(declared);
    if is_unused(declared, past) {
        return Some(past);
    }
    id_zero(declared)
}

/// The value past the list.
fn past_list(declared: &FieldUsages<'_>) -> i64 {
    declared.field.min + first_place(declared, declared.ranges.len()) as i64
}

/// The first value in the order of the list that names a usage whose low half is 0.
fn id_zero(declared: &FieldUsages<'_>) -> Option<i64> {
    for range in 0..declared.ranges.len() {
        if declared.ranges[range].0 % 0x1_0000 == 0 {
            let value = declared.field.min + first_place(declared, range) as i64;
            if is_unused(declared, value) {
                return Some(value);
            }
        }
    }
    None
}

/// How many usages stand before a range.
pub(crate) fn first_place(declared: &FieldUsages<'_>, range: usize) -> u32 {
    if range == 0 {
        0
    } else {
        declared.counts[range - 1]
    }
}
