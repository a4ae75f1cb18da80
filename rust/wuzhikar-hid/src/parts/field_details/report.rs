// Exported from crates/field_details/src/report.rt by bin/export-rust. Edit that file instead.
//! Reports.

use crate::parts::field_details::collection::Collection;
use crate::parts::field_details::detail::Detail;
use crate::parts::field_details::placed::{PlacedFields, Question};
use wuzhikar_reader::parts::descriptor_parse::Kind;

/// A report that a descriptor declares.
#[derive(Clone, Copy, Debug, PartialEq, Eq)]
pub struct ReportFacts {
    /// Input, Output or Feature.
    pub kind: Kind,
    /// The Report ID, 0 where none is used.
    pub id: u32,
    /// The bits of its data items, padding among them, without the ID byte.
    pub bits: u64,
}

impl ReportFacts {
    /// The bytes of its data items, rounded up, without the ID byte.
    pub fn bytes(&self) -> u64 {
        if self.bits % 8 == 0 {
            self.bits / 8
        } else {
            self.bits / 8 + 1
        }
    }
}

/// All reports, by their first data items.
#[derive(Debug)]
pub struct Reports<'a> {
    reported: &'a [Detail],
    firsts: PlacedFields<'a>,
}

impl<'a> Reports<'a> {
    pub(crate) fn new(reported: &'a [Detail], groups: &'a [Collection]) -> Reports<'a> {
        Reports {
            reported,
            firsts: PlacedFields::new(Question::First, reported, groups),
        }
    }

    /// The next one, and what is left is without it; `None` past the last.
    fn take(&mut self) -> Option<ReportFacts> {
        match self.firsts.next() {
            Some(first) => Some(ReportFacts {
                kind: first.detail.kind,
                id: first.detail.id,
                bits: end_of_report(self.reported, first.detail.kind, first.detail.id),
            }),
            None => None,
        }
    }
}

impl<'a> Iterator for Reports<'a> {
    type Item = ReportFacts;

    fn next(&mut self) -> Option<ReportFacts> {
        self.take()
    }
}

/// The reports of an application, kind and ID of each, by their first data items in it.
#[derive(Debug)]
pub struct ReportsOf<'a> {
    firsts: PlacedFields<'a>,
}

impl<'a> ReportsOf<'a> {
    pub(crate) fn new(
        reported: &'a [Detail],
        groups: &'a [Collection],
        application: usize,
    ) -> ReportsOf<'a> {
        ReportsOf {
            firsts: PlacedFields::new(Question::FirstInside(application), reported, groups),
        }
    }

    /// The next one, and what is left is without it; `None` past the last.
    fn take(&mut self) -> Option<(Kind, u32)> {
        match self.firsts.next() {
            Some(first) => Some((first.detail.kind, first.detail.id)),
            None => None,
        }
    }
}

impl<'a> Iterator for ReportsOf<'a> {
    type Item = (Kind, u32);

    fn next(&mut self) -> Option<(Kind, u32)> {
        self.take()
    }
}

/// The bit after the last of these data items that is of a report, 0 if none is.
pub(crate) fn end_of_report(reported: &[Detail], kind: Kind, id: u32) -> u64 {
    let mut rest = reported;
    // Mostly it is the last one of all.
    while let Some((last, front)) = rest.split_last() {
        if is_of_report(last, kind, id) {
            return last.end();
        }
        rest = front;
    }
    0
}

/// Whether a data item is of a report.
#[inline(always)]
pub(crate) fn is_of_report(detail: &Detail, kind: Kind, id: u32) -> bool {
    same_kind(kind, detail.kind) && detail.id == id
}

#[inline(always)]
fn same_kind(a: Kind, b: Kind) -> bool {
    match (a, b) {
        (Kind::Input, Kind::Input) => true,
        (Kind::Output, Kind::Output) => true,
        (Kind::Feature, Kind::Feature) => true,
        _ => false,
    }
}
