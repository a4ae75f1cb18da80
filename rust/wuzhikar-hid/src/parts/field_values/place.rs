// Exported from crates/field_values/src/place.rt by bin/export-rust. Edit that file instead.
//! Values into the places of a field.

use crate::parts::field_values::bits::put_number;
use wuzhikar_reader::parts::descriptor_parse::Field;

/// Why a value is not written into a place. Where several hold, the first in this order is reported.
#[derive(Clone, Copy, Debug, PartialEq, Eq)]
pub enum PlaceError {
    /// The field has no such place.
    NoPlace,
    /// The bytes end before the place does.
    Short,
    /// A null, and the field is an Array or without Null State, or has no value for it.
    NoNull,
    /// The bits can't hold the value.
    TooLarge,
    /// The value is outside the logical extents.
    OutOfRange,
}

/// Writes a value into a place of a field, in the bytes of a report after its ID.
///
/// What is read there is then the value, and each other bit is what it was. Where it is refused, nothing changes.
pub fn write_place(
    field: &Field,
    bytes: &mut [u8],
    place: u16,
    value: i64,
) -> Result<(), PlaceError> {
    if let Some(error) = refuse(field, bytes, place, value) {
        return Err(error);
    }
    put_place(field, bytes, place, value);
    Ok(())
}

/// Writes a value into a place of a field.
pub(crate) fn put_place(field: &Field, bytes: &mut [u8], place: u16, value: i64) {
    let from = field.bit + field.size as u64 * place as u64;
    put_value(bytes, from, field.size, field.min, value);
}

/// Why a value is not written into a place, if it is not.
fn refuse(field: &Field, bytes: &[u8], place: u16, value: i64) -> Option<PlaceError> {
    if place >= field.count {
        Some(PlaceError::NoPlace)
    } else if !has_bits(field, bytes, place) {
        Some(PlaceError::Short)
    } else if !is_held(field.min, field.size, value) {
        Some(PlaceError::TooLarge)
    } else if !is_within(field, value) {
        Some(PlaceError::OutOfRange)
    } else {
        None
    }
}

/// Whether a value is within the logical extents of a field.
pub fn is_within(field: &Field, value: i64) -> bool {
    value >= field.min && value <= field.max
}

/// Whether the bytes have all bits of a place.
pub(crate) fn has_bits(field: &Field, bytes: &[u8], place: u16) -> bool {
    let end = field.bit + field.size as u64 * place as u64 + field.size as u64;
    let bytes = bytes.len() as u64;
    end / 8 < bytes || (end / 8 == bytes && end % 8 == 0)
}

/// Whether so many bits hold a value under a Logical Minimum.
pub fn is_held(minimum: i64, size: u8, value: i64) -> bool {
    if minimum < 0 {
        is_signed(numbers_of(size), value)
    } else {
        is_unsigned(numbers_of(size), value)
    }
}

/// How many numbers so many bits make.
fn numbers_of(size: u8) -> i64 {
    1 << size
}

/// Whether a value is one of so many numbers in two's complement.
fn is_signed(numbers: i64, value: i64) -> bool {
    !is_twice_below(value, 0 - numbers) && is_twice_below(value, numbers)
}

/// Whether the double of a value is less than this.
fn is_twice_below(value: i64, numbers: i64) -> bool {
    value as i128 + (value as i128) < numbers as i128
}

/// Whether a value is one of so many numbers without a sign.
fn is_unsigned(numbers: i64, value: i64) -> bool {
    value >= 0 && value < numbers
}

/// Writes a value of `size` bits from the bit `from` on; those past the end of the bytes are left out.
pub fn put_value(bytes: &mut [u8], from: u64, size: u8, minimum: i64, value: i64) {
    put_number(bytes, from, size, number_of(minimum, size, value));
}

/// The number of `size` bits that a value is.
fn number_of(minimum: i64, size: u8, value: i64) -> u32 {
    if value < 0 {
        (value + (1 << size)) as u32
    } else {
        value as u32
    }
}
