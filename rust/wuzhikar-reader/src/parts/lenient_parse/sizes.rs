// Exported from crates/lenient_parse/src/sizes.rt by bin/export-rust. Edit that file instead.
//! The Report Size and the Report Count in force (HID 1.11, 6.2.2.7).

use crate::parts::descriptor_parse::number::unsigned;
use crate::parts::descriptor_parse::stack::Stack;
use crate::parts::descriptor_parse::{GlobalTag, Item, Tag};
use crate::rattle::alloc::AllocError;

#[derive(Clone, Copy)]
pub(crate) struct Sizes {
    /// The Report Size.
    pub(crate) size: u32,
    /// The Report Count.
    pub(crate) count: u32,
}

impl Sizes {
    /// Those before the first item.
    pub(crate) const NONE: Sizes = Sizes { size: 0, count: 0 };
}

/// Takes an item.
pub(crate) fn take(sizes: &mut Stack<Sizes>, item: &Item<'_>) -> Result<(), AllocError> {
    match item.tag() {
        Tag::Global(tag) => take_global(sizes, tag, item.bytes),
        _ => Ok(()),
    }
}

fn take_global(sizes: &mut Stack<Sizes>, tag: GlobalTag, bytes: &[u8]) -> Result<(), AllocError> {
    match tag {
        GlobalTag::Push => sizes.save()?,
        GlobalTag::Pop => sizes.restore(),
        GlobalTag::ReportSize => sizes.now.size = unsigned(bytes),
        GlobalTag::ReportCount => sizes.now.count = unsigned(bytes),
        _ => {}
    }
    Ok(())
}
