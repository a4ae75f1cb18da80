// Exported from crates/descriptor_parse/src/parser.rt by bin/export-rust. Edit that file instead.
//! The parser of a text that comes in pieces.

use crate::parts::descriptor_parse::descriptor::Descriptor;
use crate::parts::descriptor_parse::fault::ParseError;
use crate::parts::descriptor_parse::reading::Reading;
use crate::rattle::alloc::Global;
use core::fmt;
use core::fmt::Debug;

/// A parser of a report descriptor that comes in pieces, as it is read off the bus (HID 1.11, section 6.2.2).
///
/// An item is checked once all its bytes are there, and at most 258 bytes of an item that is not whole yet are kept. A
/// refusal ends the parser for good: each later call answers it again.
///
/// ```rust
/// use wuzhikar_reader::Parser;
///
/// let mut parser = Parser::default();
/// // A descriptor as it comes off endpoint 0, eight bytes a packet.
/// for packet in [&[0x05, 0x09, 0x09, 1, 0x25, 1, 0x75, 8][..], &[0x95, 1, 0x81, 0x02]] {
///     parser.feed(packet)?;
/// }
/// assert_eq!(parser.finish()?.fields().len(), 1);
/// # Ok::<(), wuzhikar_reader::ParseError>(())
/// ```
pub struct Parser {
    reading: Reading,
    refused: Option<ParseError>,
}

impl Parser {
    /// Makes a parser that was fed nothing. It takes no memory yet.
    pub(crate) fn new(alloc: Global) -> Parser {
        Parser {
            reading: Reading::new(alloc),
            refused: None,
        }
    }

    /// Takes the next bytes of the text.
    ///
    /// The error is the first fault of each text that begins with what was fed: that of the least offset, and there of
    /// the least number. `Memory` comes where a growth was refused, with the offset of the item that wanted it.
    /// `TooLong` comes once every item that begins at 4,096 or before is whole.
    pub fn feed(&mut self, piece: &[u8]) -> Result<(), ParseError> {
        if let Some(error) = self.refused {
            return Err(error);
        }
        match self.reading.read(piece) {
            Ok(()) => Ok(()),
            Err(error) => {
                self.refused = Some(error);
                Err(error)
            }
        }
    }

    /// Ends the text: its descriptor, or its first fault.
    pub fn finish(self) -> Result<Descriptor, ParseError> {
        let Parser { reading, refused } = self;
        match refused {
            Some(error) => Err(error),
            None => reading.finish(),
        }
    }
}

impl Debug for Parser {
    fn fmt(&self, f: &mut fmt::Formatter<'_>) -> fmt::Result {
        f.debug_struct("Parser")
            .field("offset", &self.reading.offset)
            .field("refused", &self.refused)
            .finish_non_exhaustive()
    }
}
