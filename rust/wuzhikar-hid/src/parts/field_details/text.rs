// Exported from crates/field_details/src/text.rt by bin/export-rust. Edit that file instead.
//! What a text declares.

use crate::parts::field_details::details::Details;
use crate::parts::field_details::walk::Walk;
use wuzhikar_reader::parts::descriptor_parse::Descriptor;
use wuzhikar_reader::parts::descriptor_parse::beside::{Refusal, parse_beside};
use crate::rattle::alloc::Global;

/// Parses a report descriptor as `wuzhikar_reader::parse` does, with its details, in one walk over its items (HID 1.11,
/// 6.2.2.4 to 6.2.2.8).
pub fn parse_details(alloc: Global, text: &[u8]) -> Result<(Descriptor, Details), Refusal> {
    let mut walk = Walk::new(alloc);
    let descriptor = parse_beside(alloc, text, &mut walk)?;
    Ok((descriptor, walk.into_details()))
}
