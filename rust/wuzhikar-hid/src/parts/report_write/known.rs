// Exported from crates/report_write/src/known.rt by bin/export-rust. Edit that file instead.
//! What is known of the places of one Array while usages are put into it.

use crate::parts::report_write::hints::{FEW, note, table};
use crate::parts::report_write::kept::Kept;
use wuzhikar_reader::parts::descriptor_parse::FieldUsages;
use crate::parts::field_values::read_place;
use crate::rattle::alloc::{AllocError, Global};

/// What is known of the places of an Array.
pub(crate) struct Known {
    /// The number of its field, if one is known.
    pub(crate) field: Option<usize>,
    /// No place before this one is free.
    pub(crate) free: u16,
    /// A table: at most the place that names a usage.
    pub(crate) named: crate::rattle::Vec<u32>,
}

/// Nothing is known yet. There is a table where there are many settings.
pub(crate) fn known_for(alloc: Global, kept: &[Kept], settings: usize) -> Result<Known, AllocError> {
    let named = table(
        alloc,
        if settings <= FEW {
            0
        } else {
            most_places(kept)
        },
    )?;
    Ok(Known {
        field: None,
        free: 0,
        named,
    })
}

/// Four slots for each place of the longest Array.
fn most_places(kept: &[Kept]) -> usize {
    let mut most: u16 = 0;
    for number in 0..kept.len() {
        if kept[number].field.array {
            most = most.max(kept[number].field.count);
        }
    }
    most as usize * 4
}

/// Learns which usages the places of an Array name, where they are not known.
pub(crate) fn know(
    known: &mut Known,
    field: usize,
    declared: &FieldUsages<'_>,
    bytes: &[u8],
    marks: &[u8],
) {
    if is_known(known, field) {
        return;
    }
    known.field = Some(field);
    known.free = 0;
    learn(&mut known.named, declared, bytes);
}

/// Whether the places of a field are known.
fn is_known(known: &Known, field: usize) -> bool {
    match known.field {
        Some(number) => number == field,
        None => false,
    }
}

/// Notes which usages the places of an Array name, if there is a table.
fn learn(slots: &mut [u32], declared: &FieldUsages<'_>, bytes: &[u8]) {
    if slots.len() < 3 {
        return;
    }
    clear(slots);
    for place in 0..declared.field.count {
        if let Some(usage) = read_place(declared, false, bytes, place).usage {
            note_if(slots, usage, place);
        }
    }
}

/// Leaves nothing noted.
fn clear(slots: &mut [u32]) {
    for slot in 0..slots.len() {
        slots[slot] = u32::MAX;
    }
}

/// Notes the place of a usage, if there is a table.
pub(crate) fn note_if(slots: &mut [u32], usage: u32, place: u16) {
    if slots.len() >= 3 {
        note(slots, usage, place as u32);
    }
}
