// Exported from crates/field_values/src/list.rt by bin/export-rust. Edit that file instead.
//! The values of an Array: those that name usages, and those that name none.

use crate::parts::field_values::place::is_held;
use crate::parts::field_values::value::listed;
use wuzhikar_reader::parts::descriptor_parse::FieldUsages;

/// Whether the bits of a place of an Array hold a value, and it names no control: it is outside the logical extents, past
/// the list, or that of a usage whose low half is 0.
pub fn is_unused(declared: &FieldUsages<'_>, value: i64) -> bool {
    is_held(declared.field.min, declared.field.size, value)
        && is_no_control(listed(declared, value))
}

/// Whether a usage is none, or one whose low half is 0.
pub fn is_no_control(usage: Option<u32>) -> bool {
    match usage {
        None => true,
        Some(usage) => usage % 0x1_0000 == 0,
    }
}

/// The number of a usage in the list of a field, the first where it is listed more than once; `None` where it is not.
/// A value of an Array that is so much above the Logical Minimum names it.
pub fn number_of_usage(declared: &FieldUsages<'_>, usage: u32) -> Option<u32> {
    number_in(declared.ranges, declared.counts, 0, usage)
}

/// The same, where no range before this one has the usage.
pub fn number_of_usage_from(declared: &FieldUsages<'_>, from: usize, usage: u32) -> Option<u32> {
    number_in(declared.ranges, declared.counts, from, usage)
}

/// The same by ranges, beside each how many usages those up to it have.
fn number_in(ranges: &[(u32, u32)], counts: &[u32], from: usize, usage: u32) -> Option<u32> {
    for place in from.min(ranges.len())..ranges.len() {
        if has(ranges[place], usage) {
            return Some(counts[place] - 1 - (ranges[place].1 - usage));
        }
    }
    None
}

/// Whether a range has a usage.
fn has(range: (u32, u32), usage: u32) -> bool {
    range.0 <= usage && usage <= range.1
}
