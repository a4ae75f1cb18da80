//! A reader in the lenient mode. Written by hand: tested, not proved.

use super::reader::{Reader, ReaderError};
use wuzhikar_reader::{Lenient, ParseError, ParseFault};

impl Reader {
    /// Makes a reader in the lenient mode, as [`parse_lenient`](wuzhikar_reader::parse_lenient) parses.
    ///
    /// Beside it stands the text that was read in place of this one, if a fault was passed over: [`Lenient::passed`] has the
    /// faults. Offsets of details are those in [`Lenient::text`], and [`Lenient::origin`] gives them in this text.
    ///
    /// # Errors
    ///
    /// The first fault that is left with its offset in bytes, or refused memory.
    ///
    /// ```
    /// use wuzhikar_hid::{ParseFault, Reader};
    ///
    /// // A field of 64 bits, which becomes padding, and one of 8.
    /// let text = [0x06, 0x00, 0xff, 0x95, 1, 0x75, 64, 0x09, 1, 0x81, 0x02, 0x75, 8, 0x09, 2, 0x81, 0x02];
    /// let (reader, Some(lenient)) = Reader::lenient(&text)? else { panic!("a fault was passed over") };
    /// assert_eq!(lenient.passed()[0].fault, ParseFault::SizeTooLarge);
    /// let second = reader.placed(0).map_or(0, |placed| placed.detail.offset);
    /// assert_eq!(lenient.origin(second), 15);
    /// # Ok::<(), wuzhikar_hid::ReaderError>(())
    /// ```
    pub fn lenient(text: &[u8]) -> Result<(Reader, Option<Lenient>), ReaderError> {
        let refused = match Reader::new(text) {
            Ok(reader) => return Ok((reader, None)),
            Err(refused) => refused,
        };
        if refused == ReaderError::Memory || matches!(refused, ReaderError::Parse(error) if error.fault == ParseFault::Memory) {
            return Err(refused);
        }
        let lenient = Lenient::rewrite(text).map_err(|_| ReaderError::Memory)?.ok_or(refused)?;
        match Reader::new(lenient.text()) {
            Ok(reader) => Ok((reader, Some(lenient))),
            Err(ReaderError::Parse(ParseError { fault, offset })) => {
                Err(ReaderError::Parse(ParseError { fault, offset: lenient.origin(offset) }))
            }
            Err(error) => Err(error),
        }
    }
}
