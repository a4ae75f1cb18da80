// Exported from crates/report_read/src/value.rt by bin/export-rust. Edit that file instead.
//! The value of a place.

use crate::parts::field_values::Within;

/// The value of a place of a field.
#[derive(Clone, Copy, Debug, PartialEq, Eq)]
pub struct Value {
    /// The field, by its place in `Descriptor::fields`.
    pub field: usize,
    /// The place in the field.
    pub place: u16,
    /// Of a Variable field the usage of the place; of an Array the usage that the value names, which mostly has the ID 0 in a
    /// place that is free. `None` where there is none.
    pub usage: Option<u32>,
    /// The number in the bits, in two's complement where the Logical Minimum is negative.
    pub raw: i64,
    /// Where it is, by the logical extents.
    pub within: Within,
}
