// Exported from crates/descriptor_parse/src/descriptor.rt by bin/export-rust. Edit that file instead.
//! A report descriptor that was parsed.

use crate::parts::descriptor_parse::counts::place_usage;
use crate::parts::descriptor_parse::field::{Field, Kind};
use crate::parts::descriptor_parse::readers::{ReportFields, Usages};
use crate::parts::descriptor_parse::reports::{Link, Reports};
use crate::rattle::alloc::AllocError;
use core::fmt;
use core::fmt::Debug;

/// The fields of a report descriptor, their usages, and the lengths of its reports.
///
/// ```rust
/// use wuzhikar_reader::{Kind, parse};
///
/// // Three buttons, a bit each, and five bits of padding.
/// let text = [0x05, 0x09, 0x19, 1, 0x29, 3, 0x25, 1, 0x75, 1, 0x95, 3, 0x81, 0x02, 0x75, 5, 0x95, 1, 0x81, 0x03];
/// let descriptor = parse(&text)?;
/// assert!(!descriptor.uses_ids());
/// assert_eq!(descriptor.report_len(Kind::Input, 0), Some(1));
/// assert_eq!(descriptor.usages(0).collect::<Vec<_>>(), [0x0009_0001, 0x0009_0002, 0x0009_0003]);
/// assert_eq!(descriptor.usage(0, 2), Some(0x0009_0003));
/// # Ok::<(), wuzhikar_reader::ParseError>(())
/// ```
#[derive(Clone, PartialEq, Eq)]
pub struct Descriptor {
    reports: Reports,
}

impl Descriptor {
    #[inline(always)]
    pub(crate) fn new(reports: Reports) -> Descriptor {
        let mut reports = reports;
        reports.link();
        Descriptor { reports }
    }

    /// Returns the fields, in order of declaration.
    pub fn fields(&self) -> &[Field] {
        &self.reports.fields
    }

    /// Returns whether reports begin with a report ID (HID 1.11, 6.2.2.7).
    pub fn uses_ids(&self) -> bool {
        self.reports.has_ids
    }

    /// Returns the bytes of a report, its ID byte included; `None` if there is no report of this kind and ID.
    ///
    /// The ID is 0 where none is used.
    pub fn report_len(&self, kind: Kind, id: u8) -> Option<usize> {
        let bits = self.reports.totals.bits(kind, id) as usize;
        if bits == 0 {
            return None;
        }
        let bytes = if bits % 8 == 0 {
            bits / 8
        } else {
            bits / 8 + 1
        };
        if self.uses_ids() {
            Some(bytes + 1)
        } else {
            Some(bytes)
        }
    }

    /// Returns the usages of a field as they were declared, first and last of each range; empty if there is no such
    /// field.
    ///
    /// A single usage is a range with equal ends.
    pub fn ranges(&self, field: usize) -> &[(u32, u32)] {
        let Some(link) = self.reports.links.get(field) else {
            return &[];
        };
        part(
            &self.reports.ranges,
            first_range(&self.reports.links, field),
            link.end,
        )
    }

    /// Returns how many usages a field has up to each of its ranges, the range itself among them; empty if there is no
    /// such field.
    pub fn counts(&self, field: usize) -> &[u32] {
        let Some(link) = self.reports.links.get(field) else {
            return &[];
        };
        part(
            &self.reports.counts,
            first_range(&self.reports.links, field),
            link.end,
        )
    }

    /// Returns the fields of one report with their usages, in order. The ID is 0 where none is used.
    ///
    /// The time is that of these fields alone, whatever other reports there are.
    pub fn report(&self, kind: Kind, id: u8) -> ReportFields<'_> {
        let reports = &self.reports;
        ReportFields::new(
            kind,
            id,
            reports.totals.first(kind, id),
            &reports.fields,
            &reports.links,
            &reports.ranges,
            &reports.counts,
        )
    }

    /// Returns the usages of a field one by one, as they were declared; none if there is no such field. There can be
    /// more than the field has places, and tens of millions where the text declares wide ranges.
    pub fn usages(&self, field: usize) -> Usages<'_> {
        Usages::new(self.ranges(field))
    }

    /// Returns the usage of a place of a variable field, or usage `place` of an array's list; `None` for what does not
    /// exist.
    ///
    /// In a variable field the last usage serves the places that are left (HID 1.11, 6.2.2.8). The time grows with the
    /// logarithm of the number of the field's ranges.
    pub fn usage(&self, field: usize, place: usize) -> Option<u32> {
        let declared = self.reports.fields.get(field)?;
        place_usage(declared, self.ranges(field), self.counts(field), place)
    }
}

impl Descriptor {
    /// A copy. `AllocError` where there is no memory for it.
    pub fn try_clone(&self) -> Result<Descriptor, AllocError> {
        let reports = self.reports.try_clone()?;
        Ok(Descriptor { reports })
    }
}

impl Debug for Descriptor {
    fn fmt(&self, f: &mut fmt::Formatter<'_>) -> fmt::Result {
        f.debug_struct("Descriptor")
            .field("fields", &self.fields())
            .field("ranges", &self.reports.ranges)
            .field("uses_ids", &self.uses_ids())
            .finish_non_exhaustive()
    }
}

/// Where the usages of a field start.
#[inline(always)]
pub(crate) fn first_range(links: &[Link], field: usize) -> usize {
    if field == 0 {
        return 0;
    }
    links[field - 1].end
}

/// The elements from `start` to `end`, as far as there are any.
fn part<T>(all: &[T], start: usize, end: usize) -> &[T] {
    let (front, _) = all.split_at(end.min(all.len()));
    let (_, wanted) = front.split_at(start.min(front.len()));
    wanted
}

#[allow(unused_imports)]
use crate::rattle::memory::*;
