// Exported from crates/field_details/src/names.rt by bin/export-rust. Edit that file instead.
//! The strings and designators of data items and collections.

use crate::parts::field_details::pending::AllPending;
use crate::rattle::alloc::{AllocError, Global};

/// Some ranges that stand together, from `start` to before `end`.
#[derive(Clone, Copy, Debug)]
#[derive(PartialEq, Eq)]
pub(crate) struct Part {
    pub(crate) start: usize,
    pub(crate) end: usize,
}

impl Part {
    /// No range.
    const NONE: Part = Part { start: 0, end: 0 };
}

/// The strings or the designators of a text.
#[derive(Debug)]
#[derive(Clone, Default, PartialEq, Eq)]
pub(crate) struct Named {
    /// All ranges in the order of the text, first and last number of each.
    pub(crate) ranges: crate::rattle::Vec<(u32, u32)>,
    /// Those of each data item by its place, up to the last one that has any.
    pub(crate) fields: crate::rattle::Vec<Part>,
    /// Those of each collection by its number, up to the last one that has any.
    pub(crate) collections: crate::rattle::Vec<Part>,
}

impl Named {
    fn new(alloc: Global) -> Named {
        Named {
            ranges: crate::rattle::vec::new(alloc),
            fields: crate::rattle::vec::new(alloc),
            collections: crate::rattle::vec::new(alloc),
        }
    }

    /// Gives the data item at a place its ranges.
    #[inline(always)]
    fn name_field(&mut self, place: usize, own: &[(u32, u32)]) -> Result<(), AllocError> {
        if own.is_empty() {
            return Ok(());
        }
        let part = add(&mut self.ranges, own)?;
        put(&mut self.fields, place, part)
    }

    /// Gives the collection with a number its ranges.
    #[inline(always)]
    fn name_collection(&mut self, number: usize, own: &[(u32, u32)]) -> Result<(), AllocError> {
        if own.is_empty() {
            return Ok(());
        }
        let part = add(&mut self.ranges, own)?;
        put(&mut self.collections, number, part)
    }

    /// The ranges of a data item.
    pub(crate) fn of_field(&self, place: usize) -> &[(u32, u32)] {
        ranges_at(&self.ranges, &self.fields, place)
    }

    /// Those of a collection.
    pub(crate) fn of_collection(&self, number: usize) -> &[(u32, u32)] {
        ranges_at(&self.ranges, &self.collections, number)
    }
}

/// The strings and the designators of a text.
#[derive(Debug)]
#[derive(Clone, Default, PartialEq, Eq)]
pub(crate) struct Names {
    pub(crate) strings: Named,
    pub(crate) designators: Named,
}

impl Names {
    pub(crate) fn new(alloc: Global) -> Names {
        Names {
            strings: Named::new(alloc),
            designators: Named::new(alloc),
        }
    }

    /// Gives the data item at a place what is pending.
    #[inline(always)]
    pub(crate) fn name_field(
        &mut self,
        place: usize,
        pending: &AllPending,
    ) -> Result<(), AllocError> {
        self.strings.name_field(place, &pending.strings.ranges)?;
        self.designators
            .name_field(place, &pending.designators.ranges)
    }

    /// Gives the collection with a number what is pending.
    #[inline(always)]
    pub(crate) fn name_collection(
        &mut self,
        number: usize,
        pending: &AllPending,
    ) -> Result<(), AllocError> {
        self.strings
            .name_collection(number, &pending.strings.ranges)?;
        self.designators
            .name_collection(number, &pending.designators.ranges)
    }
}

/// Adds ranges, and tells where they stand.
fn add(ranges: &mut crate::rattle::Vec<(u32, u32)>, own: &[(u32, u32)]) -> Result<Part, AllocError> {
    let start = ranges.len();
    ranges.extend_in(own)?;
    Ok(Part {
        start,
        end: ranges.len(),
    })
}

/// Puts a part at a place, after empty ones at the places before that have none.
fn put(parts: &mut crate::rattle::Vec<Part>, place: usize, part: Part) -> Result<(), AllocError> {
    while parts.len() < place {
        parts.push_in(Part::NONE)?;
    }
    parts.push_in(part)?;
    Ok(())
}

/// The ranges at a place, none where there is no part.
fn ranges_at<'a>(ranges: &'a [(u32, u32)], parts: &[Part], place: usize) -> &'a [(u32, u32)] {
    match parts.get(place) {
        Some(part) => between(ranges, *part),
        None => &[],
    }
}

/// The ranges of a part.
fn between(ranges: &[(u32, u32)], part: Part) -> &[(u32, u32)] {
    match ranges.get(part.start..part.end) {
        Some(own) => own,
        None => &[],
    }
}

#[allow(unused_imports)]
use crate::rattle::memory::*;
