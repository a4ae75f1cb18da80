// Exported from crates/descriptor_parse/src/counts.rt by bin/export-rust. Edit that file instead.
//! The usage with a number in a field's list, found by how many usages each range and those before it have.

use crate::parts::descriptor_parse::field::Field;

/// The usage of a place of a field with these usages.
pub(crate) fn place_usage(
    field: &Field,
    ranges: &[(u32, u32)],
    counts: &[u32],
    place: usize,
) -> Option<u32> {
    if field.array {
        return nth_usage(ranges, counts, place);
    }
    if place >= field.count as usize {
        return None;
    }
    nth_usage(
        ranges,
        counts,
        place.min(all_usages(counts).saturating_sub(1)),
    )
}

/// The usage with this number in the list that the ranges make.
#[inline(always)]
pub(crate) fn nth_usage(ranges: &[(u32, u32)], counts: &[u32], number: usize) -> Option<u32> {
    let [(first, last), ..] = ranges else {
        return None;
    };
    // Most fields have one range.
    if first <= last && number <= (last - first) as usize {
        return Some(first + number as u32);
    }
    nth_usage_by_halves(ranges, counts, number)
}

/// The same, by halves.
#[inline(never)]
fn nth_usage_by_halves(ranges: &[(u32, u32)], counts: &[u32], number: usize) -> Option<u32> {
    let place = range_of(counts, number);
    let (_, last) = ranges.get(place)?;
    Some(last - (counts[place] - number as u32 - 1))
}

/// The range that has the usage with this number, or the number of the ranges if none has.
fn range_of(counts: &[u32], number: usize) -> usize {
    let mut low = 0;
    let mut high = counts.len();
    while low < high {
        let middle = low + (high - low) / 2;
        if counts[middle] as usize <= number {
            low = middle + 1;
        } else {
            high = middle;
        }
    }
    low
}

/// How many usages all ranges have.
fn all_usages(counts: &[u32]) -> usize {
    if counts.is_empty() {
        0
    } else {
        counts[counts.len() - 1] as usize
    }
}
