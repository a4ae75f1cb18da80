// Exported from crates/report_read/src/reader.rt by bin/export-rust. Edit that file instead.
//! A kept reader.

use crate::parts::report_read::error::ReadingError;
use crate::parts::report_read::items::{null_states_of, places_of};
use crate::parts::report_read::lane::Lane;
use crate::parts::report_read::reading::Reading;
use wuzhikar_reader::parts::descriptor_parse::beside::Refusal;
use wuzhikar_reader::parts::descriptor_parse::{Descriptor, Kind};
use crate::parts::field_details::{Details, Placed, parse_details};
use crate::parts::report_write::kept_at;
use crate::rattle::alloc::{AllocError, Global};

/// A report: its bytes, 0 where there is none, and its fields.
#[derive(Debug)]
#[derive(Clone)]
pub(crate) struct Plan {
    pub(crate) len: usize,
    pub(crate) lanes: crate::rattle::Vec<Lane>,
}

/// The reports of an ID.
#[derive(Debug)]
#[derive(Clone)]
pub(crate) struct Plans {
    pub(crate) input: Plan,
    pub(crate) output: Plan,
    pub(crate) feature: Plan,
}

/// A reader of reports that is made once of a descriptor.
#[derive(Clone, Debug)]
pub struct ReportReader {
    descriptor: Descriptor,
    details: Details,
    /// The place of each field's item among the data items.
    places: crate::rattle::Vec<usize>,
    /// Whether the elements of each field can be null.
    null_states: crate::rattle::Vec<bool>,
    /// The reports by their IDs, up to the last ID that a field has.
    by_id: crate::rattle::Vec<Plans>,
}

impl ReportReader {
    /// The reader of a report descriptor of at most 4,096 bytes (HID 1.11, 6.2.2).
    ///
    /// The error is the first fault of the text with its offset in bytes, or says that there was no memory.
    pub fn of_text(alloc: Global, text: &[u8]) -> Result<ReportReader, Refusal> {
        let (descriptor, details) = parse_details(alloc, text)?;
        match ReportReader::new(alloc, descriptor, details) {
            Ok(reader) => Ok(reader),
            Err(_) => Err(Refusal::Memory),
        }
    }

    /// The reader of a descriptor with its details.
    fn new(
        alloc: Global,
        descriptor: Descriptor,
        details: Details,
    ) -> Result<ReportReader, AllocError> {
        let fields = descriptor.fields().len();
        let places = places_of(alloc, &details, fields)?;
        let null_states = null_states_of(alloc, &details, fields)?;
        let by_id = all_plans(alloc, &descriptor, &null_states)?;
        Ok(ReportReader {
            descriptor,
            details,
            places,
            null_states,
            by_id,
        })
    }

    /// The descriptor.
    #[inline(always)]
    pub fn descriptor(&self) -> &Descriptor {
        &self.descriptor
    }

    /// The details: all data items, padding among them, the collections, and what names them.
    pub fn details(&self) -> &Details {
        &self.details
    }

    /// The item of a field with its place among the data items, by the field's place in `Descriptor::fields`; `None` where there is
    /// no such field.
    #[inline]
    pub fn placed(&self, field: usize) -> Option<Placed<'_>> {
        match self.places.get(field) {
            Some(place) => item_at(&self.details, *place),
            None => None,
        }
    }

    /// Whether the elements of each field can be null, by its place in `Descriptor::fields`.
    pub fn null_states(&self) -> &[bool] {
        &self.null_states
    }

    /// Reads a report of a kind: its values one by one, in the order of its fields and their places. Bytes past its end are
    /// left, as [`Reading::rest`].
    ///
    /// The errors, in this order: `Empty` where there is no byte; `UnknownReport` where there is no report of this kind with the
    /// ID that it begins with; `Short` where it is shorter than its descriptor says.
    #[inline]
    pub fn read<'a>(&'a self, kind: Kind, report: &'a [u8]) -> Result<Reading<'a>, ReadingError> {
        if report.is_empty() {
            return Err(ReadingError::Empty);
        }
        let (id, bytes) = split(&self.descriptor, report);
        let (len, lanes) = self.plan(kind, id);
        if len == 0 {
            return Err(ReadingError::UnknownReport);
        }
        if report.len() < len {
            return Err(ReadingError::Short);
        }
        let (_, rest) = report.split_at(len);
        Ok(Reading::new(id, rest, &self.descriptor, bytes, lanes))
    }

    /// The bytes of a report, 0 where there is none, and its fields.
    #[inline(always)]
    fn plan(&self, kind: Kind, id: u8) -> (usize, &[Lane]) {
        match self.by_id.get(id as usize) {
            Some(plans) => {
                let plan = plan_on(plans, kind);
                (plan.len, &plan.lanes)
            }
            // Past the last ID that a field has there are reports of padding alone.
            None => (self.descriptor.report_len(kind, id).unwrap_or(0), &[]),
        }
    }
}

/// The data item at a place.
#[inline]
fn item_at(details: &Details, place: usize) -> Option<Placed<'_>> {
    match details.fields.get(place) {
        Some(detail) => Some(Placed { place, detail }),
        None => None,
    }
}

/// The ID of a report, 0 where none is used, and the bytes after it.
#[inline(always)]
pub(crate) fn split<'a>(descriptor: &Descriptor, report: &'a [u8]) -> (u8, &'a [u8]) {
    if !descriptor.uses_ids() {
        return (0, report);
    }
    match report {
        [id, bytes @ ..] => (*id, bytes),
        [] => (0, report),
    }
}

/// The report of a kind.
#[inline(always)]
fn plan_on(plans: &Plans, kind: Kind) -> &Plan {
    match kind {
        Kind::Input => &plans.input,
        Kind::Output => &plans.output,
        Kind::Feature => &plans.feature,
    }
}

/// The reports by their IDs, up to the last ID that a field has.
fn all_plans(
    alloc: Global,
    descriptor: &Descriptor,
    null_states: &[bool],
) -> Result<crate::rattle::Vec<Plans>, AllocError> {
    let mut by_id = empty_plans(alloc, descriptor)?;
    for number in 0..descriptor.fields().len() {
        add_field(descriptor, null_states, number, &mut by_id)?;
    }
    Ok(by_id)
}

/// The reports by their IDs, without their fields.
fn empty_plans(alloc: Global, descriptor: &Descriptor) -> Result<crate::rattle::Vec<Plans>, AllocError> {
    let rows = rows_of(descriptor);
    let mut by_id = crate::rattle::vec::with_capacity(alloc, rows as usize)?;
    for id in 0..rows {
        by_id.push_in(Plans {
            input: empty_plan(alloc, descriptor, Kind::Input, id as u8),
            output: empty_plan(alloc, descriptor, Kind::Output, id as u8),
            feature: empty_plan(alloc, descriptor, Kind::Feature, id as u8),
        })?;
    }
    Ok(by_id)
}

/// The report of a kind and ID, without its fields.
fn empty_plan(alloc: Global, descriptor: &Descriptor, kind: Kind, id: u8) -> Plan {
    Plan {
        len: descriptor.report_len(kind, id).unwrap_or(0),
        lanes: crate::rattle::vec::new(alloc),
    }
}

/// Adds a field to its report, which has those before it.
fn add_field(
    descriptor: &Descriptor,
    null_states: &[bool],
    number: usize,
    by_id: &mut [Plans],
) -> Result<(), AllocError> {
    let kept = kept_at(descriptor, null_states, number);
    let lane = Lane::new(descriptor, &kept);
    push_lane(&mut by_id[kept.field.id as usize], kept.field.kind, lane)
}

/// Adds a field to the report of a kind.
fn push_lane(plans: &mut Plans, kind: Kind, lane: Lane) -> Result<(), AllocError> {
    match kind {
        Kind::Input => plans.input.lanes.push_in(lane)?,
        Kind::Output => plans.output.lanes.push_in(lane)?,
        Kind::Feature => plans.feature.lanes.push_in(lane)?,
    }
    Ok(())
}

/// How many IDs there are up to the last that a field has.
fn rows_of(descriptor: &Descriptor) -> u16 {
    let mut rows = 0;
    for field in descriptor.fields() {
        rows = rows.max(field.id as u16 + 1);
    }
    rows
}

#[allow(unused_imports)]
use crate::rattle::memory::*;
