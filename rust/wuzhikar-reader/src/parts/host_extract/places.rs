// Exported from crates/host_extract/src/places.rt by bin/export-rust. Edit that file instead.
//! The places of one field.

use crate::parts::host_extract::number::{byte_or_number_at, number_at, value_under};
use crate::parts::host_extract::reading::Found;
use crate::parts::descriptor_parse::{Field, FieldUsages};
use crate::rattle::alloc::AllocError;

/// Reads the places of a field, in order.
pub(crate) fn read_field(
    out: &mut crate::rattle::Vec<Found>,
    declared: &FieldUsages<'_>,
    bytes: &[u8],
) -> Result<(), AllocError> {
    if declared.field.array {
        read_array(out, declared, bytes)
    } else {
        read_variable(out, declared, bytes)
    }
}

/// Reads a variable field: each place has a usage of its own, and the last usage serves the places that are left.
// Not inlined, so that its loop has the registers to itself: 46 instructions a place instead of 67.
#[inline(never)]
fn read_variable(
    out: &mut crate::rattle::Vec<Found>,
    declared: &FieldUsages<'_>,
    bytes: &[u8],
) -> Result<(), AllocError> {
    let field = &declared.field;
    let mut usages = declared.usages();
    let mut serving = None;
    for place in 0..field.count {
        serving = usages.next().or(serving);
        let value = value_at(field, bytes, place);
        push_named(out, serving, value)?;
    }
    Ok(())
}

/// Reads an array: each place names by its value a usage of the list, or none.
#[inline(never)]
fn read_array(
    out: &mut crate::rattle::Vec<Found>,
    declared: &FieldUsages<'_>,
    bytes: &[u8],
) -> Result<(), AllocError> {
    let field = &declared.field;
    for place in 0..field.count {
        let value = value_in_array(field, bytes, place);
        let usage = usage_by_value(declared, value);
        push_named(out, usage, 1)?;
    }
    Ok(())
}

/// The usage that a value of an array names, if it is within the logical extents and the list has so many.
#[inline(always)]
fn usage_by_value(declared: &FieldUsages<'_>, value: i64) -> Option<u32> {
    let field = &declared.field;
    if value < field.min || value > field.max {
        return None;
    }
    declared.nth(value.abs_diff(field.min) as usize)
}

/// As `value_at`, sooner where each place is a byte, as in most arrays.
#[inline(always)]
fn value_in_array(field: &Field, bytes: &[u8], place: u16) -> i64 {
    let bit = field.bit + field.size as u64 * place as u64;
    let number = byte_or_number_at(bytes, bit, field.size);
    value_under(field.min, field.size, number)
}

/// The value of a place: the number in its bits, in two's complement where the Logical Minimum is negative (HID 1.11, 5.8).
#[inline(always)]
pub fn value_at(field: &Field, bytes: &[u8], place: u16) -> i64 {
    let bit = field.bit + field.size as u64 * place as u64;
    let number = number_at(bytes, bit, field.size);
    value_under(field.min, field.size, number)
}

/// Adds what a usage with a value is read as: none if there is no usage, or one whose low half is 0.
fn push_named(out: &mut crate::rattle::Vec<Found>, usage: Option<u32>, value: i64) -> Result<(), AllocError> {
    match usage {
        Some(usage) if usage % 0x1_0000 != 0 => {
            out.push_in(Found { usage, value })?;
            Ok(())
        }
        Some(_) | None => Ok(()),
    }
}

#[allow(unused_imports)]
use crate::rattle::memory::*;
