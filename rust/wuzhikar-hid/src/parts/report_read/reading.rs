// Exported from crates/report_read/src/reading.rt by bin/export-rust. Edit that file instead.
//! The values of a report one by one.

use crate::parts::report_read::lane::Lane;
use crate::parts::report_read::value::Value;
use wuzhikar_reader::parts::descriptor_parse::Descriptor;
use core::fmt;
use core::fmt::Debug;

/// The values of a report one by one, in the order of its fields and their places.
#[derive(Clone)]
pub struct Reading<'a> {
    id: u8,
    rest: &'a [u8],
    descriptor: &'a Descriptor,
    bytes: &'a [u8],
    /// What is left, and the next place of the first of it.
    lanes: &'a [Lane],
    place: u16,
}

impl<'a> Reading<'a> {
    #[inline(always)]
    pub(crate) fn new(
        id: u8,
        rest: &'a [u8],
        descriptor: &'a Descriptor,
        bytes: &'a [u8],
        lanes: &'a [Lane],
    ) -> Reading<'a> {
        Reading {
            id,
            rest,
            descriptor,
            bytes,
            lanes,
            place: 0,
        }
    }

    /// The Report ID, 0 where none is used.
    pub fn id(&self) -> u8 {
        self.id
    }

    /// The bytes past the end of the report; none where it is as long as its descriptor declares.
    pub fn rest(&self) -> &'a [u8] {
        self.rest
    }

    /// The next value, and what is left is without it; `None` past the last.
    #[inline(always)]
    fn take(&mut self) -> Option<Value> {
        let [lane, lanes @ ..] = self.lanes else {
            return None;
        };
        let place = self.place;
        let value = lane.value(self.descriptor, self.bytes, place);
        if place + 1 < lane.kept.field.count {
            self.place = place + 1;
        } else {
            self.lanes = lanes;
            self.place = 0;
        }
        Some(value)
    }
}

impl<'a> Iterator for Reading<'a> {
    type Item = Value;

    #[inline]
    fn next(&mut self) -> Option<Value> {
        self.take()
    }
}

impl Debug for Reading<'_> {
    fn fmt(&self, f: &mut fmt::Formatter<'_>) -> fmt::Result {
        f.debug_struct("Reading")
            .field("id", &self.id)
            .field("rest", &self.rest)
            .field("place", &self.place)
            .finish_non_exhaustive()
    }
}
