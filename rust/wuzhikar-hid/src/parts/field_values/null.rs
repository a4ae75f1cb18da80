// Exported from crates/field_values/src/null.rt by bin/export-rust. Edit that file instead.
//! Nulls: places that say that a control has no value.

use crate::parts::field_values::place::{PlaceError, has_bits, is_held, is_within, put_place, write_place};
use wuzhikar_reader::parts::descriptor_parse::Field;

/// What a control is set to.
#[derive(Clone, Copy, Debug, PartialEq, Eq)]
pub enum Asked {
    /// A value. For a usage of an Array 1 puts it into a place that names none, and 0 takes it out of all.
    Value(i64),
    /// No value: Null State.
    Null,
}

/// Writes what is asked for into a place of a field, in the bytes of a report after its ID. `null_state` is whether the
/// item of the field has Null State.
///
/// What is read there is then the value, or one outside the logical extents for a null, and each other bit is what it
/// was. Where it is refused, nothing changes.
pub fn set_place(
    field: &Field,
    null_state: bool,
    bytes: &mut [u8],
    place: u16,
    asked: Asked,
) -> Result<(), PlaceError> {
    match asked {
        Asked::Value(value) => write_place(field, bytes, place, value),
        Asked::Null => write_null(field, null_state, bytes, place),
    }
}

/// Writes a null into a place of a field.
fn write_null(
    field: &Field,
    null_state: bool,
    bytes: &mut [u8],
    place: u16,
) -> Result<(), PlaceError> {
    if place >= field.count {
        return Err(PlaceError::NoPlace);
    }
    if !has_bits(field, bytes, place) {
        return Err(PlaceError::Short);
    }
    if !null_state || field.array {
        return Err(PlaceError::NoNull);
    }
    match null_of(field) {
        Some(value) => {
            put_place(field, bytes, place, value);
            Ok(())
        }
        None => Err(PlaceError::NoNull),
    }
}

/// The value by which a place of a field says that there is none: outside the logical extents, and one that the bits
/// hold. It is 0, or else one over the greatest, or else one under the least.
pub fn null_of(field: &Field) -> Option<i64> {
    if is_null(field, 0) {
        Some(0)
    } else if is_null_over(field) {
        Some(field.max + 1)
    } else if is_null_under(field) {
        Some(field.min - 1)
    } else {
        None
    }
}

/// Whether one over the greatest value says that there is none.
fn is_null_over(field: &Field) -> bool {
    field.max < i64::MAX && is_null(field, field.max + 1)
}

/// Whether one under the least value does.
fn is_null_under(field: &Field) -> bool {
    field.min > i64::MIN && is_null(field, field.min - 1)
}

/// Whether a value is outside the logical extents and the bits of a place hold it.
pub fn is_null(field: &Field, value: i64) -> bool {
    !is_within(field, value) && is_held(field.min, field.size, value)
}
