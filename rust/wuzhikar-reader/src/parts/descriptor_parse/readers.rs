// Exported from crates/descriptor_parse/src/readers.rt by bin/export-rust. Edit that file instead.
//! Readers of a descriptor: the fields of one report, and the usages of a field one by one.

use crate::parts::descriptor_parse::descriptor::first_range;
use crate::parts::descriptor_parse::field::{Field, Kind};
use crate::parts::descriptor_parse::field_usages::FieldUsages;
use crate::parts::descriptor_parse::reports::Link;
use core::fmt;
use core::fmt::Debug;

/// The fields of one report, in order of declaration.
pub struct ReportFields<'a> {
    kind: Kind,
    id: u8,
    /// The place of the next field.
    next: u16,
    fields: &'a [Field],
    links: &'a [Link],
    ranges: &'a [(u32, u32)],
    counts: &'a [u32],
}

impl<'a> ReportFields<'a> {
    pub(crate) fn new(
        kind: Kind,
        id: u8,
        first: u16,
        fields: &'a [Field],
        links: &'a [Link],
        ranges: &'a [(u32, u32)],
        counts: &'a [u32],
    ) -> ReportFields<'a> {
        ReportFields {
            kind,
            id,
            next: first,
            fields,
            links,
            ranges,
            counts,
        }
    }

    /// The next field, and what is left is without it; `None` past the last.
    fn take(&mut self) -> Option<FieldUsages<'a>> {
        let place = self.next as usize;
        let Some(link) = self.links.get(place) else {
            return None;
        };
        let start = first_range(self.links, place);
        let ranges = between(self.ranges, start, link.end);
        let counts = between(self.counts, start, link.end);
        self.next = link.next;
        Some(FieldUsages {
            field: self.fields[place],
            ranges,
            counts,
        })
    }
}

/// The elements from `start` to `end`.
#[inline(always)]
fn between<T>(all: &[T], start: usize, end: usize) -> &[T] {
    let (front, _) = all.split_at(end);
    let (_, wanted) = front.split_at(start);
    wanted
}

impl<'a> Iterator for ReportFields<'a> {
    type Item = FieldUsages<'a>;

    fn next(&mut self) -> Option<FieldUsages<'a>> {
        self.take()
    }
}

impl Debug for ReportFields<'_> {
    fn fmt(&self, f: &mut fmt::Formatter<'_>) -> fmt::Result {
        f.debug_struct("ReportFields")
            .field("kind", &self.kind)
            .field("id", &self.id)
            .field("next", &self.next)
            .finish_non_exhaustive()
    }
}

/// The usages of a field one by one.
#[derive(Debug)]
pub struct Usages<'a> {
    /// The next usage and the last of the range in hand, if any is left of it.
    next: u32,
    last: u32,
    in_hand: bool,
    rest: &'a [(u32, u32)],
}

impl<'a> Usages<'a> {
    /// The usages that these ranges make.
    pub fn new(ranges: &'a [(u32, u32)]) -> Usages<'a> {
        Usages {
            next: 0,
            last: 0,
            in_hand: false,
            rest: ranges,
        }
    }

    /// The next usage, and what is left is without it; `None` past the last.
    fn take(&mut self) -> Option<u32> {
        while !self.in_hand {
            let [(first, last), rest @ ..] = self.rest else {
                return None;
            };
            self.next = *first;
            self.last = *last;
            self.in_hand = first <= last;
            self.rest = rest;
        }
        let usage = self.next;
        if usage < self.last {
            self.next = usage + 1;
        } else {
            self.in_hand = false;
        }
        Some(usage)
    }
}

impl<'a> Iterator for Usages<'a> {
    type Item = u32;

    fn next(&mut self) -> Option<u32> {
        self.take()
    }
}
