//! The calls as they are in Rust, without an allocator. Written by hand: tested, not proved.

use crate::parts::descriptor_parse::{self, Descriptor, ParseError, Parser};
use crate::parts::host_extract::{self, ExtractError, Found};
use crate::parts::lenient_parse::{self, Lenient};
use crate::rattle::alloc::AllocError;
use alloc::vec::Vec;

/// Parses a report descriptor of at most 4,096 bytes (HID 1.11, section 6.2.2).
///
/// Time is linear in the text, memory in its fields and usages.
///
/// # Errors
///
/// `ParseError` is the first fault of the text with the offset of its item in bytes, or says that memory was refused.
///
/// ```
/// use wuzhikar_reader::{ParseError, ParseFault, parse};
///
/// // A Usage Page, and an End Collection without a Collection.
/// let refused = parse(&[0x05, 0x01, 0xc0]).err();
/// assert_eq!(refused, Some(ParseError { fault: ParseFault::EndWithoutCollection, offset: 2 }));
/// ```
#[inline]
pub fn parse(text: &[u8]) -> Result<Descriptor, ParseError> {
    descriptor_parse::parse((), text)
}

/// Parses a report descriptor of at most 4,096 bytes in the lenient mode, and returns the faults of [`parse`] that were passed
/// over, with their offsets in bytes.
///
/// A set between Delimiters is read as its first usage. A data item of a size or a count past the limits, and of 2^20 bits at
/// most, is padding. In a text with Report IDs the data items before the first one are left out. A text that [`parse`] takes is
/// answered the same, and nothing is passed over.
///
/// # Errors
///
/// `ParseError` is the first fault that is left, or says that memory was refused.
///
/// ```
/// use wuzhikar_reader::{ParseError, ParseFault, parse_lenient};
///
/// // A field of 64 bits, and one of 8.
/// let text = [0x06, 0x00, 0xff, 0x95, 1, 0x75, 64, 0x09, 1, 0x81, 0x02, 0x75, 8, 0x09, 2, 0x81, 0x02];
/// let (descriptor, passed) = parse_lenient(&text)?;
/// assert_eq!((descriptor.fields().len(), descriptor.fields()[0].bit), (1, 64));
/// assert_eq!(passed, [ParseError { fault: ParseFault::SizeTooLarge, offset: 9 }]);
/// # Ok::<(), ParseError>(())
/// ```
#[inline]
pub fn parse_lenient(text: &[u8]) -> Result<(Descriptor, Vec<ParseError>), ParseError> {
    lenient_parse::parse_lenient((), text)
}

impl Lenient {
    /// Makes the text that [`parse_lenient`] parses in place of one; `None` where that is the text itself.
    ///
    /// # Errors
    ///
    /// `AllocError` if memory was refused.
    ///
    /// ```
    /// use wuzhikar_reader::{Lenient, ParseFault, parse};
    ///
    /// // A field of 64 bits, which becomes padding.
    /// let text = [0x06, 0x00, 0xff, 0x95, 1, 0x75, 64, 0x09, 1, 0x81, 0x02];
    /// if let Some(lenient) = Lenient::rewrite(&text)? {
    ///     assert_eq!(lenient.passed()[0].fault, ParseFault::SizeTooLarge);
    ///     assert!(parse(lenient.text())?.fields().is_empty());
    /// }
    /// # assert!(Lenient::rewrite(&text)?.is_some());
    /// # Ok::<(), Box<dyn core::error::Error>>(())
    /// ```
    pub fn rewrite(text: &[u8]) -> Result<Option<Lenient>, AllocError> {
        lenient_parse::rewritten((), text)
    }
}

/// Reads the usages of an input report with their values, in the order of the report (HID 1.11, section 8.4).
///
/// A report begins with its ID byte if the descriptor uses Report IDs. Bytes past its end are ignored.
///
/// # Errors
///
/// `ExtractError`, in this order: the report is empty, has an ID without an input report, is too short, or memory was
/// refused.
///
/// ```
/// use wuzhikar_reader::{BOOT_DESCRIPTOR, ExtractError, Found, extract, parse, pressed};
///
/// let keyboard = parse(&BOOT_DESCRIPTOR)?;
/// // The left Shift key and the key A.
/// let found = extract(&keyboard, &[0b10, 0, 0x04, 0, 0, 0, 0, 0])?;
/// assert!(found.contains(&Found { usage: 0x0007_0004, value: 1 }));
/// assert_eq!(pressed(&found)?, [0x0007_0004, 0x0007_00e1]);
/// assert_eq!(extract(&keyboard, &[0b10, 0]), Err(ExtractError::Short));
/// # Ok::<(), Box<dyn core::error::Error>>(())
/// ```
#[inline]
pub fn extract(descriptor: &Descriptor, report: &[u8]) -> Result<Vec<Found>, ExtractError> {
    host_extract::extract((), descriptor, report)
}

/// Returns the usages whose value is not 0, rising, each once.
///
/// This is for keys and buttons: an axis or a hat switch may rest at another value than 0.
///
/// # Errors
///
/// `AllocError` if memory was refused.
#[inline]
pub fn pressed(found: &[Found]) -> Result<Vec<u32>, AllocError> {
    host_extract::pressed((), found)
}

impl Default for Parser {
    /// Makes a parser that was fed nothing.
    fn default() -> Parser {
        Parser::new(())
    }
}
