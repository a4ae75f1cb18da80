// Exported from crates/field_details/src/collection.rt by bin/export-rust. Edit that file instead.
//! What a collection says.

/// A collection (HID 1.11, 6.2.2.6).
#[derive(Clone, Copy, Debug, PartialEq, Eq)]
pub struct Collection {
    /// The offset of the item in the text, in bytes.
    pub offset: usize,
    /// The data of the item: 0 Physical, 1 Application, 2 Logical, and so on.
    pub kind: u32,
    /// The first Usage before it since the latest Main item, with its page in the high half.
    pub usage: Option<u32>,
    /// The number of the collection right around it, if there is one.
    pub outer: Option<usize>,
}

impl Collection {
    /// Whether it is an Application collection.
    #[inline(always)]
    pub fn is_application(&self) -> bool {
        self.kind == 1
    }
}
