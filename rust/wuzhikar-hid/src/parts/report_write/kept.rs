// Exported from crates/report_write/src/kept.rt by bin/export-rust. Edit that file instead.
//! The fields of one report.

use wuzhikar_reader::parts::descriptor_parse::{Descriptor, Field, FieldUsages, Kind};
use crate::rattle::alloc::{AllocError, Global};

/// A field of a report.
#[derive(Clone, Copy, Debug, PartialEq, Eq)]
pub struct Kept {
    /// Its place among the fields of the descriptor.
    pub number: usize,
    /// Whether its item has Null State.
    pub null_state: bool,
    /// The field.
    pub field: Field,
}

/// The fields of a report, in order. `null_states` is whether each field of the descriptor has Null State.
pub fn kept_fields(
    alloc: Global,
    descriptor: &Descriptor,
    null_states: &[bool],
    kind: Kind,
    id: u8,
) -> Result<crate::rattle::Vec<Kept>, AllocError> {
    let fields = descriptor.fields();
    let mut kept = crate::rattle::vec::new(alloc);
    for number in 0..fields.len() {
        let field = fields[number];
        if is_of_report(&field, kind, id) {
            let null_state = has_null_state(null_states, number);
            kept.push_in(Kept {
                number,
                null_state,
                field,
            })?;
        }
    }
    Ok(kept)
}

/// A field of the descriptor, with its number.
pub fn kept_at(descriptor: &Descriptor, null_states: &[bool], number: usize) -> Kept {
    Kept {
        number,
        null_state: has_null_state(null_states, number),
        field: descriptor.fields()[number],
    }
}

/// Whether a field has Null State; one past the list has none.
fn has_null_state(null_states: &[bool], number: usize) -> bool {
    null_states.get(number).copied().unwrap_or(false)
}

/// Whether a field is of a report.
fn is_of_report(field: &Field, kind: Kind, id: u8) -> bool {
    field.kind == kind && field.id == id
}

/// A field with its usages.
pub fn usages_of<'a>(descriptor: &'a Descriptor, kept: &Kept) -> FieldUsages<'a> {
    FieldUsages {
        field: kept.field,
        ranges: descriptor.ranges(kept.number),
        counts: descriptor.counts(kept.number),
    }
}

#[allow(unused_imports)]
use crate::rattle::memory::*;
