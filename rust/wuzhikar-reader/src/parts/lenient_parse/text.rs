// Exported from crates/lenient_parse/src/text.rt by bin/export-rust. Edit that file instead.
//! A whole text as a descriptor, in the lenient mode.

use crate::parts::lenient_parse::lenient::{Lenient, rewritten};
use crate::parts::descriptor_parse::{Descriptor, ParseError, ParseFault, parse};
use crate::rattle::alloc::Global;

/// Parses a report descriptor of at most 4,096 bytes in the lenient mode (HID 1.11, section 6.2.2): its descriptor, and the
/// faults of the strict reader that were passed over, in order.
///
/// A text that the strict reader takes gets its answer, with no fault. The error is the first fault that is left; `Memory` comes
/// where a growth was refused, with the offset of the item that wanted it, or that of the first fault, which the growth was to pass.
pub fn parse_lenient(
    alloc: Global,
    text: &[u8],
) -> Result<(Descriptor, crate::rattle::Vec<ParseError>), ParseError> {
    match parse(alloc, text) {
        Ok(descriptor) => Ok((descriptor, crate::rattle::vec::new(alloc))),
        Err(error) => match error.fault {
            ParseFault::Memory => Err(error),
            _ => parse_refused(alloc, text, error),
        },
    }
}

/// Parses a text that the strict reader refuses for this error.
fn parse_refused(
    alloc: Global,
    text: &[u8],
    error: ParseError,
) -> Result<(Descriptor, crate::rattle::Vec<ParseError>), ParseError> {
    match rewritten(alloc, text) {
        Ok(Some(lenient)) => parse_instead(alloc, lenient),
        Ok(None) => Err(error),
        Err(_) => Err(ParseError {
            fault: ParseFault::Memory,
            offset: error.offset,
        }),
    }
}

fn parse_instead(
    alloc: Global,
    lenient: Lenient,
) -> Result<(Descriptor, crate::rattle::Vec<ParseError>), ParseError> {
    match parse(alloc, lenient.text()) {
        Ok(descriptor) => Ok((descriptor, lenient.into_passed())),
        Err(error) => Err(ParseError {
            fault: error.fault,
            offset: lenient.origin(error.offset),
        }),
    }
}
