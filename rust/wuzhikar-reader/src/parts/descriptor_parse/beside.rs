// Exported from crates/descriptor_parse/src/beside.rt by bin/export-rust. Edit that file instead.
//! A text that is parsed for more than its fields, in one walk over its items.

use crate::parts::descriptor_parse::descriptor::Descriptor;
use crate::parts::descriptor_parse::fault::ParseError;
use crate::parts::descriptor_parse::items::{Item, cut};
use crate::parts::descriptor_parse::reading::{end, take_item};
use crate::parts::descriptor_parse::state::State;
use crate::rattle::alloc::{AllocError, Global};

/// What is kept beside the fields.
pub trait Beside {
    /// Takes an item, after those that this state stands for. Memory is wanted only at a data item, a Collection, a Push, and an
    /// item that the parser skips.
    fn take(&mut self, item: &Item<'_>, before: &State) -> Result<(), AllocError>;
}

/// Why a text is not parsed.
#[derive(Clone, Copy, Debug, PartialEq, Eq)]
pub enum Refusal {
    /// The text is refused, or there was no memory for its fields.
    Parse(ParseError),
    /// There was no memory for what is kept beside.
    Memory,
}

/// Parses a report descriptor as [`parse`](crate::parse) does, and gives each item to what is kept beside the fields.
///
/// A fault of an item comes before the memory that was wanted for it beside.
pub fn parse_beside<B: Beside>(
    alloc: Global,
    text: &[u8],
    beside: &mut B,
) -> Result<Descriptor, Refusal> {
    let mut state = State::new(alloc);
    let mut at = 0;
    let mut rest = text;
    while let Some((item, after, _)) = cut(at, rest) {
        let kept = beside.take(&item, &state);
        match take_item(&mut state, &item, rest.len() - after.len()) {
            Ok(offset) => at = offset,
            Err(error) => return Err(Refusal::Parse(error)),
        }
        if kept.is_err() {
            return Err(Refusal::Memory);
        }
        rest = after;
    }
    match end(state, rest, at) {
        Ok(descriptor) => Ok(descriptor),
        Err(error) => Err(Refusal::Parse(error)),
    }
}
