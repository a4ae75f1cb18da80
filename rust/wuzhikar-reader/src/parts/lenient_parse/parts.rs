// Exported from crates/lenient_parse/src/parts.rt by bin/export-rust. Edit that file instead.
//! The parts of a text: its whole items, and an item that was cut off.

use crate::parts::descriptor_parse::{Item, Items};
use crate::rattle::alloc::{AllocError, Global};

/// The whole items of a text in order, and where they end.
pub(crate) fn whole_items(alloc: Global, text: &[u8]) -> Result<(crate::rattle::Vec<Item<'_>>, usize), AllocError> {
    let mut items = crate::rattle::vec::new(alloc);
    for each in Items::new(text) {
        match each {
            Ok(item) => items.push_in(item)?,
            Err(error) => return Ok((items, error.offset)),
        }
    }
    Ok((items, text.len()))
}

/// The bytes of a text from an offset on.
pub(crate) fn part_from(text: &[u8], offset: usize) -> &[u8] {
    let (_, part) = text.split_at(offset.min(text.len()));
    part
}

#[allow(unused_imports)]
use crate::rattle::memory::*;
