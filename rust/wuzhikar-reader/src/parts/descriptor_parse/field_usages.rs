// Exported from crates/descriptor_parse/src/field_usages.rt by bin/export-rust. Edit that file instead.
//! A field with its usages.

use crate::parts::descriptor_parse::counts::{nth_usage, place_usage};
use crate::parts::descriptor_parse::field::Field;
use crate::parts::descriptor_parse::readers::Usages;

/// A field with its usages: the first and the last of each range, and how many usages the ranges up to each have.
#[derive(Clone, Copy, Debug)]
pub struct FieldUsages<'a> {
    pub field: Field,
    pub ranges: &'a [(u32, u32)],
    pub counts: &'a [u32],
}

impl<'a> FieldUsages<'a> {
    /// Returns the usages one by one.
    pub fn usages(&self) -> Usages<'a> {
        Usages::new(self.ranges)
    }

    /// Returns the usage of a place of a variable field, or usage `place` of an array's list; `None` for what does not
    /// exist.
    ///
    /// In a variable field the last usage serves the places that are left (HID 1.11, 6.2.2.8). The time grows with the
    /// logarithm of the number of ranges.
    pub fn usage(&self, place: usize) -> Option<u32> {
        place_usage(&self.field, self.ranges, self.counts, place)
    }

    /// Returns the usage with this number in the list that the ranges make, whatever the field is.
    ///
    /// The time grows with the logarithm of the number of ranges.
    #[inline(always)]
    pub fn nth(&self, number: usize) -> Option<u32> {
        nth_usage(self.ranges, self.counts, number)
    }
}
