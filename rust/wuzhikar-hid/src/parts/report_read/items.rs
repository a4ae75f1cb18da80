// Exported from crates/report_read/src/items.rt by bin/export-rust. Edit that file instead.
//! The data items of a descriptor's fields.

use crate::parts::field_details::{Detail, Details};
use crate::rattle::alloc::{AllocError, Global};

/// The place of each field's item among the data items; there are so many fields.
pub(crate) fn places_of(
    alloc: Global,
    details: &Details,
    fields: usize,
) -> Result<crate::rattle::Vec<usize>, AllocError> {
    let mut places = crate::rattle::vec::with_capacity(alloc, fields)?;
    for placed in details.data_fields() {
        places.push_in(placed.place)?;
    }
    Ok(places)
}

/// Whether the elements of each field can be null; there are so many fields.
pub(crate) fn null_states_of(
    alloc: Global,
    details: &Details,
    fields: usize,
) -> Result<crate::rattle::Vec<bool>, AllocError> {
    let mut null_states = crate::rattle::vec::with_capacity(alloc, fields)?;
    for placed in details.data_fields() {
        null_states.push_in(can_be_null(placed.detail))?;
    }
    Ok(null_states)
}

/// Whether an element can be null.
fn can_be_null(detail: &Detail) -> bool {
    detail.is_variable() && detail.has_null_state()
}

#[allow(unused_imports)]
use crate::rattle::memory::*;
