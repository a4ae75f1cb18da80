// Exported from crates/descriptor_parse/src/text.rt by bin/export-rust. Edit that file instead.
//! A whole text as a descriptor.

use crate::parts::descriptor_parse::descriptor::Descriptor;
use crate::parts::descriptor_parse::fault::ParseError;
use crate::parts::descriptor_parse::reading::{end_error, read_items};
use crate::parts::descriptor_parse::state::State;
use crate::rattle::alloc::Global;

/// Parses a report descriptor of at most 4,096 bytes (HID 1.11, section 6.2.2).
///
/// The error is the first fault of the text: that of the least offset, and there of the least number. `Memory`
/// comes where a growth was refused, with the offset of the item that wanted it. A text that is longer is read up
/// to the item at 4,096, which can still have a fault of its own.
pub fn parse(alloc: Global, text: &[u8]) -> Result<Descriptor, ParseError> {
    // Without a `Parser`, which keeps bytes of an item that is not whole.
    let mut state = State::new(alloc);
    let (offset, left) = read_items(&mut state, 0, text)?;
    // Before the state is given away, which would copy it for what drops it.
    if let Some(error) = end_error(&state, left, offset) {
        return Err(error);
    }
    Ok(Descriptor::new(state.into_reports()))
}
