// Exported from crates/field_details/src/pending.rt by bin/export-rust. Edit that file instead.
//! The strings and designators that wait for the next Main item.

use crate::parts::field_details::naming::{Naming, least_after, range_of};
use wuzhikar_reader::parts::descriptor_parse::Item;
use crate::rattle::alloc::{AllocError, Global};

/// The strings or the designators since the latest Main item.
pub(crate) struct Pending {
    /// The ranges in order, first and last number of each.
    pub(crate) ranges: crate::rattle::Vec<(u32, u32)>,
    /// The Minimum that waits for a Maximum.
    pub(crate) least: Option<u32>,
}

impl Pending {
    fn new(alloc: Global) -> Pending {
        Pending {
            ranges: crate::rattle::vec::new(alloc),
            least: None,
        }
    }

    /// Takes a Local item, or another that the parser of fields skips.
    #[inline(always)]
    fn take(&mut self, naming: Naming, item: &Item<'_>) -> Result<(), AllocError> {
        if let Some(range) = range_of(naming, item, self.least) {
            self.ranges.push_in(range)?;
        }
        self.least = least_after(naming, item, self.least);
        Ok(())
    }

    /// Ends them at a Main item.
    #[inline(always)]
    fn clear(&mut self) {
        self.ranges.clear();
        self.least = None;
    }
}

/// The strings and the designators since the latest Main item.
pub(crate) struct AllPending {
    pub(crate) strings: Pending,
    pub(crate) designators: Pending,
}

impl AllPending {
    pub(crate) fn new(alloc: Global) -> AllPending {
        AllPending {
            strings: Pending::new(alloc),
            designators: Pending::new(alloc),
        }
    }

    /// Takes a Local item, or another that the parser of fields skips.
    #[inline(always)]
    pub(crate) fn take(&mut self, item: &Item<'_>) -> Result<(), AllocError> {
        self.strings.take(Naming::Strings, item)?;
        self.designators.take(Naming::Designators, item)
    }

    /// Ends them at a Main item.
    #[inline(always)]
    pub(crate) fn clear(&mut self) {
        self.strings.clear();
        self.designators.clear();
    }
}

#[allow(unused_imports)]
use crate::rattle::memory::*;
