// Exported from crates/report_write/src/array.rt by bin/export-rust. Edit that file instead.
//! Usages of Arrays that are set. `marks` stands beside the bytes of a report: a bit of it is on where a place begins that an
//! earlier setting has set. `number` is the setting's.

use crate::parts::report_write::control::is_usage;
use crate::parts::report_write::hints::least_of;
use crate::parts::report_write::kept::{Kept, usages_of};
use crate::parts::report_write::known::{Known, note_if};
use crate::parts::report_write::place::{is_set, mark, put_one};
use crate::parts::report_write::setting::WriteError;
use crate::parts::report_write::unused::unused;
use wuzhikar_reader::parts::descriptor_parse::{Descriptor, FieldUsages};
use crate::parts::field_values::{Asked, is_held, is_no_control, number_of_usage_from, read_place};

/// Puts a usage into an Array, or takes it out. No range of the Array before `from` has it.
pub(crate) fn set_usage(
    descriptor: &Descriptor,
    kept: &Kept,
    known: &mut Known,
    from: usize,
    usage: u32,
    asked: Asked,
    number: usize,
    bytes: &mut [u8],
    marks: &mut [u8],
) -> Result<(), WriteError> {
    let declared = usages_of(descriptor, kept);
    match asked {
        Asked::Null => Err(WriteError::NoNull(number)),
        Asked::Value(value) => {
            if value == 0 {
                take_out(&declared, known, usage, number, bytes, marks)
            } else if value == 1 {
                put_in(&declared, known, from, usage, number, bytes, marks)
            } else {
                Err(WriteError::OutOfRange(number))
            }
        }
    }
}

/// Puts a usage into the place that names it already, or else into the first that is free.
fn put_in(
    declared: &FieldUsages<'_>,
    known: &mut Known,
    from: usize,
    usage: u32,
    number: usize,
    bytes: &mut [u8],
    marks: &mut [u8],
) -> Result<(), WriteError> {
    let value = match number_of_usage_from(declared, from, usage) {
        None => return Err(WriteError::Unknown(number)),
        Some(listed) => declared.field.min + listed as i64,
    };
    if !is_held(declared.field.min, declared.field.size, value) {
        return Err(WriteError::TooLarge(number));
    }
    if value > declared.field.max {
        return Err(WriteError::OutOfRange(number));
    }
    let place = match place_for(declared, known, bytes, marks, usage) {
        None => return Err(WriteError::NoRoom(number)),
        Some(place) => place,
    };
    if is_set(&declared.field, marks, place) {
        return Err(WriteError::Twice(number));
    }
    put_one(&declared.field, place, value, bytes);
    mark(&declared.field, marks, place);
    note_if(&mut known.named, usage, place);
    Ok(())
}

/// The first place that names a usage, or else the first that is free.
fn place_for(
    declared: &FieldUsages<'_>,
    known: &mut Known,
    bytes: &[u8],
    marks: &[u8],
    usage: u32,
) -> Option<u16> {
    match first_named(declared, bytes, usage, least_of(&known.named, usage)) {
        Some(place) => Some(place),
        None => {
            let found = first_free(declared, bytes, marks, known.free);
            if let Some(place) = found {
                known.free = place;
            }
            found
        }
    }
}

/// The first place that names a usage. None before `from` does.
fn first_named(declared: &FieldUsages<'_>, bytes: &[u8], usage: u32, from: usize) -> Option<u16> {
    for place in at_most(from, declared.field.count)..declared.field.count {
        if is_named(declared, bytes, usage, place) {
            return Some(place);
        }
    }
    None
}

/// A number, or the number of places, if that is less.
fn at_most(number: usize, count: u16) -> u16 {
    if number < count as usize {
        number as u16
    } else {
        count
    }
}

/// The first place that is free. None before `from` is.
fn first_free(declared: &FieldUsages<'_>, bytes: &[u8], marks: &[u8], from: u16) -> Option<u16> {
    for place in from.min(declared.field.count)..declared.field.count {
        if is_free(declared, bytes, marks, place) {
            return Some(place);
        }
    }
    None
}

/// Whether a place names a usage.
fn is_named(declared: &FieldUsages<'_>, bytes: &[u8], usage: u32, place: u16) -> bool {
    is_usage(read_place(declared, false, bytes, place).usage, usage)
}

/// Whether a place names no usage, or one whose low half is 0, and no setting has set it.
fn is_free(declared: &FieldUsages<'_>, bytes: &[u8], marks: &[u8], place: u16) -> bool {
    !is_set(&declared.field, marks, place)
        && is_no_control(read_place(declared, false, bytes, place).usage)
}

/// Takes a usage out of each place that names it.
fn take_out(
    declared: &FieldUsages<'_>,
    known: &mut Known,
    usage: u32,
    number: usize,
    bytes: &mut [u8],
    marks: &mut [u8],
) -> Result<(), WriteError> {
    known.field = None;
    let value = match unused(declared) {
        None => return Err(WriteError::NoRoom(number)),
        Some(value) => value,
    };
    if is_set_already(declared, usage, bytes, marks) {
        return Err(WriteError::Twice(number));
    }
    put_all(declared, usage, value, bytes);
    Ok(())
}

/// Whether a place that names a usage was set.
fn is_set_already(declared: &FieldUsages<'_>, usage: u32, bytes: &[u8], marks: &[u8]) -> bool {
    for place in 0..declared.field.count {
        if is_named(declared, bytes, usage, place) && is_set(&declared.field, marks, place) {
            return true;
        }
    }
    false
}

/// Writes a value into each place that names a usage.
fn put_all(declared: &FieldUsages<'_>, usage: u32, value: i64, bytes: &mut [u8]) {
    for place in 0..declared.field.count {
        if is_named(declared, bytes, usage, place) {
            put_one(&declared.field, place, value, bytes);
        }
    }
}
