// Exported from crates/field_details/src/placed.rt by bin/export-rust. Edit that file instead.
//! Data items with their places, by what is asked for.

use crate::parts::field_details::around::application_of;
use crate::parts::field_details::collection::Collection;
use crate::parts::field_details::detail::Detail;
use crate::parts::field_details::report::is_of_report;
use wuzhikar_reader::parts::descriptor_parse::Kind;

/// A data item with its place among all of a descriptor.
#[derive(Clone, Copy, Debug, PartialEq, Eq)]
pub struct Placed<'a> {
    /// The place in [`Details::fields`](crate::Details::fields).
    pub place: usize,
    /// What it declares.
    pub detail: &'a Detail,
}

/// Which data items are asked for.
#[derive(Clone, Copy, Debug)]
pub(crate) enum Question {
    /// Those that are not Constant.
    Data,
    /// Those that are.
    Padding,
    /// Those of a report.
    Report(Kind, u32),
    /// The first of each report.
    First,
    /// The first of each report among those of an application.
    FirstInside(usize),
}

/// Data items with their places, in order.
#[derive(Debug)]
pub struct PlacedFields<'a> {
    question: Question,
    reported: &'a [Detail],
    groups: &'a [Collection],
    /// The place of the next one that may be asked for.
    next: usize,
}

impl<'a> PlacedFields<'a> {
    #[inline(always)]
    pub(crate) fn new(
        question: Question,
        reported: &'a [Detail],
        groups: &'a [Collection],
    ) -> PlacedFields<'a> {
        PlacedFields {
            question,
            reported,
            groups,
            next: 0,
        }
    }

    /// The next one, and what is left is without it; `None` past the last.
    #[inline(always)]
    fn take(&mut self) -> Option<Placed<'a>> {
        let found = first_from(self.question, self.reported, self.groups, self.next);
        match found {
            Some(placed) => self.next = placed.place + 1,
            None => {}
        }
        found
    }
}

impl<'a> Iterator for PlacedFields<'a> {
    type Item = Placed<'a>;

    #[inline(always)]
    fn next(&mut self) -> Option<Placed<'a>> {
        self.take()
    }
}

/// The first data item from a place on that is asked for.
#[inline(always)]
fn first_from<'a>(
    question: Question,
    reported: &'a [Detail],
    groups: &[Collection],
    from: usize,
) -> Option<Placed<'a>> {
    let mut place = from;
    while let Some(detail) = reported.get(place) {
        if passes(question, reported, groups, place, detail) {
            return Some(Placed { place, detail });
        }
        place += 1;
    }
    None
}

/// Whether a data item is asked for.
#[inline(always)]
fn passes(
    question: Question,
    reported: &[Detail],
    groups: &[Collection],
    place: usize,
    detail: &Detail,
) -> bool {
    match question {
        Question::Data => !detail.is_constant(),
        Question::Padding => detail.is_constant(),
        Question::Report(kind, id) => is_of_report(detail, kind, id),
        Question::First => !has_report(reported.split_at(place).0, detail.kind, detail.id),
        Question::FirstInside(number) => {
            let front = reported.split_at(place).0;
            is_inside(reported, groups, number, place)
                && !has_inside(front, reported, groups, number, detail.kind, detail.id)
        }
    }
}

/// Whether one of these data items is of a report.
fn has_report(front: &[Detail], kind: Kind, id: u32) -> bool {
    let mut rest = front;
    while let Some((first, behind)) = rest.split_first() {
        if is_of_report(first, kind, id) {
            return true;
        }
        rest = behind;
    }
    false
}

/// Whether the data item at a place belongs to an application.
fn is_inside(reported: &[Detail], groups: &[Collection], number: usize, place: usize) -> bool {
    match application_of(reported, groups, place) {
        Some(application) => application == number,
        None => false,
    }
}

/// Whether one of the data items in front is of a report and belongs to an application.
pub(crate) fn has_inside(
    front: &[Detail],
    reported: &[Detail],
    groups: &[Collection],
    number: usize,
    kind: Kind,
    id: u32,
) -> bool {
    let mut place = 0;
    while let Some(detail) = front.get(place) {
        if is_of_report(detail, kind, id) && is_inside(reported, groups, number, place) {
            return true;
        }
        place += 1;
    }
    false
}
