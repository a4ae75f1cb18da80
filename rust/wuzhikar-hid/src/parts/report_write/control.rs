// Exported from crates/report_write/src/control.rt by bin/export-rust. Edit that file instead.
//! The control that a setting means.

use crate::parts::report_write::hints::{Hints, least_of};
use crate::parts::report_write::kept::{Kept, usages_of};
use crate::parts::report_write::setting::Target;
use crate::parts::report_write::unused::first_place;
use wuzhikar_reader::parts::descriptor_parse::{Descriptor, FieldUsages};
use crate::parts::field_values::number_of_usage_from;

/// A control of a report.
#[derive(Clone, Copy, Debug, PartialEq, Eq)]
pub enum Control {
    /// A place of a field.
    Place(Kept, u16),
    /// A usage of an Array.
    Usage(Kept, u32),
}

/// The control that is meant; `None` where the report does not have it.
pub fn control_of(descriptor: &Descriptor, kept: &[Kept], target: Target) -> Option<Control> {
    match target {
        Target::Usage { usage, place } => control_with(descriptor, kept, usage, place, (0, 0)),
        Target::Field { field, place } => place_of(kept, field, place),
    }
}

/// The same, by tables.
pub(crate) fn control_by(
    descriptor: &Descriptor,
    kept: &[Kept],
    hints: &Hints,
    target: Target,
) -> Option<Control> {
    match target {
        Target::Usage { usage, place } => {
            let from = (
                least_of(&hints.fields, usage),
                least_of(&hints.ranges, usage),
            );
            control_with(descriptor, kept, usage, place, from)
        }
        Target::Field { field, place } => place_of(kept, field, place),
    }
}

/// The control with this number among those that have a usage. `from` is a field and a range in it: none before has it.
fn control_with(
    descriptor: &Descriptor,
    kept: &[Kept],
    usage: u32,
    place: usize,
    from: (usize, usize),
) -> Option<Control> {
    let mut left = place;
    for number in from.0..kept.len() {
        let declared = usages_of(descriptor, &kept[number]);
        match control_in(&kept[number], &declared, usage, left, from.1) {
            Ok(control) => return Some(control),
            Err(past) => left = past,
        }
    }
    None
}

/// The control of a field with this number among those that have a usage, or else the number without them.
fn control_in(
    kept: &Kept,
    declared: &FieldUsages<'_>,
    usage: u32,
    number: usize,
    from: usize,
) -> Result<Control, usize> {
    if declared.field.array {
        if !number_of_usage_from(declared, from, usage).is_some() {
            Err(number)
        } else if number == 0 {
            Ok(Control::Usage(*kept, usage))
        } else {
            Err(number - 1)
        }
    } else {
        match place_with(declared, usage, number, from) {
            Ok(place) => Ok(Control::Place(*kept, place)),
            Err(left) => Err(left),
        }
    }
}

/// The place of a Variable field with this number among those that have a usage, or else the number without them.
fn place_with(
    declared: &FieldUsages<'_>,
    usage: u32,
    number: usize,
    from: usize,
) -> Result<u16, usize> {
    let mut left = number;
    for range in from.min(declared.ranges.len())..declared.ranges.len() {
        if let Some(place) = place_in_range(declared, range, usage) {
            if left == 0 {
                return Ok(place);
            }
            left -= 1;
        }
    }
    let served = served_by_last(declared, usage);
    if left < served as usize {
        Ok(declared.field.count - (served - left as u16))
    } else {
        Err(left - served as usize)
    }
}

/// The place to which a range gives a usage.
fn place_in_range(declared: &FieldUsages<'_>, range: usize, usage: u32) -> Option<u16> {
    let (first, last) = declared.ranges[range];
    if usage < first || last < usage {
        return None;
    }
    let place = first_place(declared, range) as u64 + (usage - first) as u64;
    if place < declared.field.count as u64 {
        Some(place as u16)
    } else {
        None
    }
}

/// How many places past the list have a usage by its last one: all or none.
fn served_by_last(declared: &FieldUsages<'_>, usage: u32) -> u16 {
    let listed = first_place(declared, declared.ranges.len());
    if listed < declared.field.count as u32 && is_usage(declared.usage(listed as usize), usage) {
        declared.field.count - listed as u16
    } else {
        0
    }
}

/// Whether something is this usage.
pub(crate) fn is_usage(found: Option<u32>, usage: u32) -> bool {
    match found {
        Some(other) => other == usage,
        None => false,
    }
}

/// A place of a field of a report.
fn place_of(kept: &[Kept], field: usize, place: usize) -> Option<Control> {
    for number in 0..kept.len() {
        if kept[number].number == field {
            return place_in(&kept[number], place);
        }
    }
    None
}

/// A place of a field.
fn place_in(kept: &Kept, place: usize) -> Option<Control> {
    if place < kept.field.count as usize {
        Some(Control::Place(*kept, place as u16))
    } else {
        None
    }
}
