//! A kept reader: the calls of the proved one. Written by hand.

use crate::parts::report_read::{self, ReportReader};
use crate::{Changed, Details, Placed, Reading, ReadingError};
use alloc::vec::Vec;
use core::fmt;
use wuzhikar_reader::parts::descriptor_parse::beside::Refusal;
use wuzhikar_reader::{Descriptor, Kind, ParseError};

/// A reader of reports that is made once of a report descriptor. The [root of the crate](crate) shows it in drivers.
#[derive(Clone, Debug)]
pub struct Reader {
    reports: ReportReader,
}

/// Why there is no reader of a text.
#[derive(Clone, Copy, Debug, PartialEq, Eq)]
pub enum ReaderError {
    /// The text is refused, or there was no memory while it was parsed.
    Parse(ParseError),
    /// There was no memory for what is kept beside.
    Memory,
}

impl fmt::Display for ReaderError {
    fn fmt(&self, f: &mut fmt::Formatter<'_>) -> fmt::Result {
        match self {
            ReaderError::Parse(error) => error.fmt(f),
            ReaderError::Memory => f.write_str("out of memory"),
        }
    }
}

impl core::error::Error for ReaderError {}

impl From<ParseError> for ReaderError {
    fn from(error: ParseError) -> ReaderError {
        ReaderError::Parse(error)
    }
}

impl From<Refusal> for ReaderError {
    fn from(refusal: Refusal) -> ReaderError {
        match refusal {
            Refusal::Parse(error) => ReaderError::Parse(error),
            Refusal::Memory => ReaderError::Memory,
        }
    }
}

impl Reader {
    /// Makes a reader of a report descriptor of at most 4,096 bytes (HID 1.11, section 6.2.2).
    ///
    /// # Errors
    ///
    /// The first fault of the text with its offset in bytes, or refused memory.
    ///
    /// ```
    /// use wuzhikar_hid::{ParseError, ParseFault, Reader, ReaderError};
    ///
    /// // A Collection that is not closed.
    /// let refused = Reader::new(&[0xa1, 0x01]).unwrap_err();
    /// assert_eq!(refused, ReaderError::Parse(ParseError { fault: ParseFault::CollectionOpen, offset: 2 }));
    /// ```
    pub fn new(text: &[u8]) -> Result<Reader, ReaderError> {
        Ok(Reader { reports: ReportReader::of_text((), text)? })
    }

    /// Returns the descriptor: its fields and their usages.
    pub fn descriptor(&self) -> &Descriptor {
        self.reports.descriptor()
    }

    /// Returns the attributes of all data items, the collections and the reports.
    pub fn details(&self) -> &Details {
        self.reports.details()
    }

    /// Returns the attributes of a field, by its place in `Descriptor::fields`, as [`Value::field`](crate::Value) has it;
    /// `None` if there is no such field.
    #[inline]
    pub fn detail(&self, field: usize) -> Option<&crate::Detail> {
        self.placed(field).map(|placed| placed.detail)
    }

    /// Returns the attributes of a field with its place in [`Details::fields`], where padding counts too. [`Details::around`]
    /// and [`Details::application`] take that place.
    #[inline]
    pub fn placed(&self, field: usize) -> Option<Placed<'_>> {
        self.reports.placed(field)
    }

    /// Whether the elements of each field can be null, by its place in `Descriptor::fields`.
    pub(super) fn null_states(&self) -> &[bool] {
        self.reports.null_states()
    }

    /// Reads the values of a report one by one (HID 1.11, sections 5.6 and 8.4). It begins with its ID byte if the
    /// descriptor uses Report IDs. Bytes past its end are left, as [`Reading::rest`].
    ///
    /// # Errors
    ///
    /// In this order: `Empty`, `UnknownReport`, `Short`.
    #[inline]
    pub fn read<'a>(&'a self, kind: Kind, report: &'a [u8]) -> Result<Reading<'a>, ReadingError> {
        self.reports.read(kind, report)
    }

    /// Returns the usages that are on in a report of a kind, rising, each once: those that arrays name, and those of variable fields
    /// whose value isn't 0.
    ///
    /// A value outside the logical extents is off, a null too. That is meant for keys, buttons and LEDs: an axis counts as on
    /// wherever it isn't 0. Usages 01h to 03h of page 07h (ErrorRollOver, POSTFail, ErrorUndefined) are reported as any other;
    /// such a report doesn't say which keys are down.
    ///
    /// # Errors
    ///
    /// As [`read`](Self::read), and `Memory`.
    pub fn pressed(&self, kind: Kind, report: &[u8]) -> Result<Vec<u32>, ReadingError> {
        report_read::pressed((), &self.reports, kind, report)
    }

    /// Returns the usages in which two reports of a kind and ID differ: on in the later one alone, or in the earlier one alone.
    /// A driver keeps the last report of each ID.
    ///
    /// # Errors
    ///
    /// As [`read`](Self::read) of `before`, then of `now`; then `OtherId`, and `Memory`.
    pub fn changes(&self, kind: Kind, before: &[u8], now: &[u8]) -> Result<Changed, ReadingError> {
        report_read::changes((), &self.reports, kind, before, now)
    }

    /// Returns the bytes of a field of Buffered Bytes in a report (HID 1.11, section 6.2.2.5): the bits of its elements one after
    /// the other. The last byte is filled up with 0.
    ///
    /// # Errors
    ///
    /// As [`read`](Self::read); then `NoSuchField` if the report has no such field of Buffered Bytes, and `Memory`.
    ///
    /// ```
    /// use wuzhikar_hid::{Kind, Reader, ReadingError};
    ///
    /// // A text of four bytes.
    /// let text = [0x05, 0x14, 0x09, 0x2c, 0x26, 0xff, 0x00, 0x75, 8, 0x95, 4, 0x82, 0x02, 0x01];
    /// let reader = Reader::new(&text)?;
    /// assert_eq!(reader.buffered(Kind::Input, b"Wuzh", 0)?, b"Wuzh");
    /// assert_eq!(reader.buffered(Kind::Input, b"Wuzh", 1), Err(ReadingError::NoSuchField));
    /// # Ok::<(), Box<dyn std::error::Error>>(())
    /// ```
    pub fn buffered(&self, kind: Kind, report: &[u8], field: usize) -> Result<Vec<u8>, ReadingError> {
        report_read::buffered((), &self.reports, kind, report, field)
    }
}
