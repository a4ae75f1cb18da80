// Exported from crates/host_extract/src/press.rt by bin/export-rust. Edit that file instead.
//! The usages that are on.

use crate::parts::host_extract::reading::Found;
use crate::rattle::alloc::{AllocError, Global};

/// The usages with a value that is not 0, rising, each once.
///
/// The error says that a growth was refused; without such a usage no memory is taken.
pub fn pressed(alloc: Global, found: &[Found]) -> Result<crate::rattle::Vec<u32>, AllocError> {
    let mut usages = crate::rattle::vec::new(alloc);
    for reading in found {
        if is_on(*reading) {
            usages.push_in(reading.usage)?;
        }
    }
    make_rising(&mut usages);
    Ok(usages)
}

/// Sorts numbers and drops repeats.
fn make_rising(usages: &mut crate::rattle::Vec<u32>) {
    usages.sort_unstable();
    usages.dedup();
}

/// Whether a reading's value is not 0.
fn is_on(reading: Found) -> bool {
    reading.value < 0 || reading.value > 0
}

#[allow(unused_imports)]
use crate::rattle::memory::*;
