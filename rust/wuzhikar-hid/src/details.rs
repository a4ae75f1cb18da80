//! What a report descriptor declares beside the bits of its fields (HID 1.11, sections 6.2.2.4 to 6.2.2.8). It is
//! exported from a proved source, but for the names of units and of types of collections: by hand, tested, not proved.

mod facts;

pub use crate::parts::field_details::{
    Applications, Around, Collection, Detail, Details, Dimension, Placed, PlacedFields, ReportFacts, Reports, ReportsOf,
};
pub use facts::NoUnit;

use crate::ReaderError;
use crate::parts::field_details;

/// Reads the attributes of all data items, the collections and the reports from a descriptor's text of at most 4,096 bytes.
///
/// It needs no [`Reader`](crate::Reader), which has them too.
///
/// # Errors
///
/// `ReaderError` as [`Reader::new`](crate::Reader::new) gives it.
pub fn details(text: &[u8]) -> Result<Details, ReaderError> {
    Ok(field_details::parse_details((), text)?.1)
}
