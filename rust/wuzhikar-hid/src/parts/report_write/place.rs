// Exported from crates/report_write/src/place.rt by bin/export-rust. Edit that file instead.
//! One place that is set.

use crate::parts::report_write::kept::Kept;
use crate::parts::report_write::setting::WriteError;
use wuzhikar_reader::parts::descriptor_parse::Field;
use crate::parts::field_values::{Asked, PlaceError, put_number, put_value, set_place};
use wuzhikar_reader::parts::host_extract::number_at;

/// Writes what is asked for into a place, and marks it.
pub(crate) fn set_one(
    kept: &Kept,
    place: u16,
    asked: Asked,
    number: usize,
    bytes: &mut [u8],
    marks: &mut [u8],
) -> Result<(), WriteError> {
    if is_set(&kept.field, marks, place) {
        return Err(WriteError::Twice(number));
    }
    if let Err(error) = set_place(&kept.field, kept.null_state, bytes, place, asked) {
        return Err(as_write_error(number, error));
    }
    mark(&kept.field, marks, place);
    Ok(())
}

/// A refusal of a place, told of the setting with a number.
fn as_write_error(number: usize, error: PlaceError) -> WriteError {
    match error {
        PlaceError::NoPlace => WriteError::Unknown(number),
        PlaceError::Short => WriteError::Short,
        PlaceError::NoNull => WriteError::NoNull(number),
        PlaceError::TooLarge => WriteError::TooLarge(number),
        PlaceError::OutOfRange => WriteError::OutOfRange(number),
    }
}

/// The first bit of a place.
fn first_bit(field: &Field, place: u16) -> u64 {
    field.bit + field.size as u64 * place as u64
}

/// Whether a place was set.
pub(crate) fn is_set(field: &Field, marks: &[u8], place: u16) -> bool {
    number_at(marks, first_bit(field, place), 1) == 1
}

/// Marks a place as set.
pub(crate) fn mark(field: &Field, marks: &mut [u8], place: u16) {
    put_number(marks, first_bit(field, place), 1, 1);
}

/// Puts a value that the bits hold into a place.
pub(crate) fn put_one(field: &Field, place: u16, value: i64, bytes: &mut [u8]) {
    put_value(bytes, first_bit(field, place), field.size, field.min, value);
}
