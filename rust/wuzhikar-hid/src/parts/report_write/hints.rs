// Exported from crates/report_write/src/hints.rt by bin/export-rust. Edit that file instead.
//! From where on a usage is looked for.
//!
//! A table has two slots for each usage, which others share, and a last one for all: each holds the least number that was noted.
//! So the greater of the two is at most the number of the usage, and nothing before it has to be looked at.

use crate::parts::report_write::kept::Kept;
use wuzhikar_reader::parts::descriptor_parse::Descriptor;
use crate::rattle::alloc::{AllocError, Global};

/// So few settings are looked for without a table.
pub(crate) const FEW: usize = 8;

/// A range of more usages than this is noted for all usages.
const WIDE: u32 = 64;

/// Tables of the fields of a report, and of the ranges in each, by usage.
pub(crate) struct Hints {
    /// The least place of a field in the report.
    pub(crate) fields: crate::rattle::Vec<u32>,
    /// The least place of a range in its field.
    pub(crate) ranges: crate::rattle::Vec<u32>,
}

/// Tables for so many settings.
pub(crate) fn hints_of(
    alloc: Global,
    descriptor: &Descriptor,
    kept: &[Kept],
    settings: usize,
) -> Result<Hints, AllocError> {
    let size = if settings <= FEW {
        0
    } else {
        size_for(descriptor, kept)
    };
    let mut fields = table(alloc, size)?;
    let mut ranges = table(alloc, size)?;
    for number in 0..kept.len() {
        let its = descriptor.ranges(kept[number].number);
        note_field(its, number, &mut fields, &mut ranges);
    }
    Ok(Hints { fields, ranges })
}

/// How many slots a table of all ranges has.
fn size_for(descriptor: &Descriptor, kept: &[Kept]) -> usize {
    let mut count: u32 = 1;
    for number in 0..kept.len() {
        count = count.saturating_add(at_most(descriptor.ranges(kept[number].number).len()));
    }
    count.saturating_mul(4) as usize
}

/// A table of so many slots, in which nothing is noted.
pub(crate) fn table(alloc: Global, size: usize) -> Result<crate::rattle::Vec<u32>, AllocError> {
    let mut slots = crate::rattle::vec::with_capacity(alloc, size)?;
    for _ in 0..size {
        slots.push_in(u32::MAX)?;
    }
    Ok(slots)
}

/// Notes the place of a field, and those of its ranges.
fn note_field(its: &[(u32, u32)], field: usize, fields: &mut [u32], ranges: &mut [u32]) {
    for range in 0..its.len() {
        let (first, last) = its[range];
        note_range(fields, first, last, field);
        note_range(ranges, first, last, range);
    }
}

/// Notes a number for each usage of a range.
fn note_range(slots: &mut [u32], first: u32, last: u32, number: usize) {
    if slots.len() < 3 || last < first {
        return;
    }
    let least = at_most(number);
    if last - first > WIDE {
        lower(slots, slots.len() - 1, least);
        return;
    }
    for step in 0..last - first + 1 {
        note(slots, first + step, least);
    }
}

/// Notes a number for a usage.
pub(crate) fn note(slots: &mut [u32], usage: u32, number: u32) {
    let one = near(usage, slots.len());
    let other = far(usage, slots.len());
    lower(slots, one, number);
    lower(slots, other, number);
}

/// Lowers a slot to a number.
fn lower(slots: &mut [u32], slot: usize, number: u32) {
    if number < slots[slot] {
        slots[slot] = number;
    }
}

/// The number that is noted of a usage, or a lower one.
pub(crate) fn least_of(slots: &[u32], usage: u32) -> usize {
    if slots.len() < 3 {
        return 0;
    }
    let all = slots[slots.len() - 1];
    if all == 0 {
        return 0;
    }
    let one = slots[near(usage, slots.len())];
    let other = slots[far(usage, slots.len())];
    one.max(other).min(all) as usize
}

/// The first slot of a usage.
fn near(usage: u32, len: usize) -> usize {
    usage as usize % ((len - 1) / 2)
}

/// Its second slot.
fn far(usage: u32, len: usize) -> usize {
    len - 2 - (usage / 7) as usize % ((len - 1) / 2)
}

/// A number, or the greatest of 32 bits that is not over it.
fn at_most(number: usize) -> u32 {
    if number < u32::MAX as usize {
        number as u32
    } else {
        u32::MAX
    }
}

#[allow(unused_imports)]
use crate::rattle::memory::*;
