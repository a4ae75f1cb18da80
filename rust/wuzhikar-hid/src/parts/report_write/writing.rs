// Exported from crates/report_write/src/writing.rt by bin/export-rust. Edit that file instead.
//! A report that is written.

use crate::parts::report_write::array::set_usage;
use crate::parts::report_write::begin::{after_id, copy_of, refuse, with_id, zeros};
use crate::parts::report_write::control::{Control, control_by};
use crate::parts::report_write::fill::fill;
use crate::parts::report_write::hints::{Hints, hints_of, least_of};
use crate::parts::report_write::kept::{Kept, kept_fields, usages_of};
use crate::parts::report_write::known::{Known, know, known_for};
use crate::parts::report_write::place::set_one;
use crate::parts::report_write::setting::{Setting, WriteError};
use wuzhikar_reader::parts::descriptor_parse::{Descriptor, Kind};
use crate::rattle::alloc::Global;

/// A report of a kind and ID, 0 where none is used, with these controls set. `null_states` is whether each field of the
/// descriptor has Null State, and one that it has no word of has none.
///
/// Each other bit is that of `onto`, also past the end of the report; in a new report places with Null State are null, where
/// the field has a value for it, places of Arrays name no usage, and the rest is 0. `Memory` is reported only where there is the
/// report, and where `onto` can be written onto.
pub fn write(
    alloc: Global,
    descriptor: &Descriptor,
    null_states: &[bool],
    kind: Kind,
    id: u8,
    settings: &[Setting],
    onto: Option<&[u8]>,
) -> Result<crate::rattle::Vec<u8>, WriteError> {
    let Some(len) = descriptor.report_len(kind, id) else {
        return Err(WriteError::UnknownReport);
    };
    let uses_ids = descriptor.uses_ids();
    if let Some(error) = refuse(uses_ids, id, len, onto) {
        return Err(error);
    }
    let kept = kept_fields(alloc, descriptor, null_states, kind, id)?;
    let mut bytes = start(alloc, descriptor, &kept, kind, id, len, onto)?;
    let mut marks = zeros(alloc, bytes.len())?;
    let hints = hints_of(alloc, descriptor, &kept, settings.len())?;
    let mut known = known_for(alloc, &kept, settings.len())?;
    set_all(
        descriptor, &kept, &hints, &mut known, settings, &mut bytes, &mut marks,
    )?;
    Ok(with_id(uses_ids, id, bytes)?)
}

/// The bytes that settings are written onto, after the ID.
fn start(
    alloc: Global,
    descriptor: &Descriptor,
    kept: &[Kept],
    kind: Kind,
    id: u8,
    len: usize,
    onto: Option<&[u8]>,
) -> Result<crate::rattle::Vec<u8>, WriteError> {
    match onto {
        Some(given) => Ok(copy_of(alloc, after_id(descriptor.uses_ids(), given))?),
        None => new_report(alloc, descriptor, kept, kind, id, len),
    }
}

/// The bytes of a new report, after its ID.
fn new_report(
    alloc: Global,
    descriptor: &Descriptor,
    kept: &[Kept],
    kind: Kind,
    id: u8,
    len: usize,
) -> Result<crate::rattle::Vec<u8>, WriteError> {
    let count = if descriptor.uses_ids() { len - 1 } else { len };
    let mut bytes = zeros(alloc, count)?;
    fill(descriptor, kept, &mut bytes)?;
    Ok(bytes)
}

/// Does what all settings ask for, in order.
fn set_all(
    descriptor: &Descriptor,
    kept: &[Kept],
    hints: &Hints,
    known: &mut Known,
    settings: &[Setting],
    bytes: &mut [u8],
    marks: &mut [u8],
) -> Result<(), WriteError> {
    for number in 0..settings.len() {
        set(
            descriptor,
            kept,
            hints,
            known,
            &settings[number],
            number,
            bytes,
            marks,
        )?;
    }
    Ok(())
}

/// Does what one setting asks for.
fn set(
    descriptor: &Descriptor,
    kept: &[Kept],
    hints: &Hints,
    known: &mut Known,
    setting: &Setting,
    number: usize,
    bytes: &mut [u8],
    marks: &mut [u8],
) -> Result<(), WriteError> {
    match control_by(descriptor, kept, hints, setting.target) {
        None => Err(WriteError::Unknown(number)),
        Some(Control::Place(field, place)) => {
            known.field = None;
            set_one(&field, place, setting.asked, number, bytes, marks)
        }
        Some(Control::Usage(field, usage)) => {
            know(
                known,
                field.number,
                &usages_of(descriptor, &field),
                bytes,
                marks,
            );
            set_usage(
                descriptor,
                &field,
                known,
                least_of(&hints.ranges, usage),
                usage,
                setting.asked,
                number,
                bytes,
                marks,
            )
        }
    }
}
