// Exported from crates/descriptor_parse/src/field.rt by bin/export-rust. Edit that file instead.
//! What a report descriptor declares.

/// The kinds of data items, and so of reports.
#[derive(Clone, Copy, Debug, PartialEq, Eq)]
pub enum Kind {
    Input,
    Output,
    Feature,
}

/// A field of a report: `count` places of `size` bits each, from the bit `bit` on (HID 1.11, 6.2.2.5 and 6.2.2.7).
///
/// `bit` counts from the least significant bit of the first byte after the report ID. `id` is 0 where no report
/// ID is in force. `min` and `max` are the logical extents.
#[derive(Clone, Copy, Debug, PartialEq, Eq)]
pub struct Field {
    pub kind: Kind,
    pub id: u8,
    pub bit: u64,
    pub size: u8,
    pub count: u16,
    pub min: i64,
    pub max: i64,
    pub array: bool,
}
