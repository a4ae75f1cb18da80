// Exported from crates/descriptor_parse/src/locals.rt by bin/export-rust. Edit that file instead.
//! The Local items since the latest Main item (HID 1.11, 6.2.2.8).

use crate::parts::descriptor_parse::fault::ParseFault;
use crate::parts::descriptor_parse::tag::LocalTag;
use crate::parts::descriptor_parse::usage::Usage;
use crate::rattle::smallvec::SmallVec;
use crate::rattle::alloc::{AllocError, Global};

/// How many ranges there is room for without memory.
const FIRST_RANGES: usize = 16;

/// A range of usages, its first and its last.
#[derive(Clone, Copy)]
pub(crate) struct UsageRange {
    pub(crate) first: Usage,
    pub(crate) last: Usage,
}

impl Default for UsageRange {
    /// What stands where there is none.
    fn default() -> UsageRange {
        UsageRange {
            first: Usage::Short(0),
            last: Usage::Short(0),
        }
    }
}

/// A Usage Minimum or Maximum that has not met its pair.
#[derive(Clone, Copy)]
pub(crate) struct Half {
    pub(crate) minimum: bool,
    pub(crate) usage: Usage,
}

/// The usages since the latest Main item, and the Minimum or Maximum that has not met its pair.
pub(crate) struct Locals {
    pub(crate) usages: SmallVec<UsageRange, FIRST_RANGES>,
    pub(crate) half: Option<Half>,
}

impl Locals {
    pub(crate) fn new(alloc: Global) -> Locals {
        Locals {
            usages: SmallVec::new(alloc),
            half: None,
        }
    }

    /// The fault of a Local item.
    #[inline(always)]
    pub(crate) fn check(&self, tag: LocalTag, usage: Usage) -> Option<ParseFault> {
        match tag {
            LocalTag::Usage => None,
            LocalTag::UsageMinimum => match self.half {
                Some(half) => pair_fault(!half.minimum, usage, half.usage),
                None => None,
            },
            LocalTag::UsageMaximum => match self.half {
                Some(half) => pair_fault(half.minimum, half.usage, usage),
                None => None,
            },
            LocalTag::Delimiter => Some(ParseFault::Delimiter),
        }
    }

    /// Takes a Local item.
    #[inline(always)]
    pub(crate) fn take(&mut self, tag: LocalTag, usage: Usage) -> Result<(), AllocError> {
        match tag {
            LocalTag::Usage => self.add(usage, usage)?,
            LocalTag::UsageMinimum => self.take_half(true, usage)?,
            LocalTag::UsageMaximum => self.take_half(false, usage)?,
            LocalTag::Delimiter => {}
        }
        Ok(())
    }

    /// Adds a range.
    #[inline(always)]
    fn add(&mut self, first: Usage, last: Usage) -> Result<(), AllocError> {
        self.usages.push_in(UsageRange { first, last })?;
        Ok(())
    }

    /// Keeps a Minimum or Maximum, or makes it a range with its pair.
    fn take_half(&mut self, minimum: bool, usage: Usage) -> Result<(), AllocError> {
        match self.half {
            None => self.half = Some(Half { minimum, usage }),
            Some(half) => {
                let (first, last) = if minimum {
                    (usage, half.usage)
                } else {
                    (half.usage, usage)
                };
                self.add(first, last)?;
                self.half = None;
            }
        }
        Ok(())
    }

    /// Ends the Local items at a Main item.
    pub(crate) fn clear(&mut self) {
        self.usages.clear();
        if self.half.is_some() {
            self.half = None;
        }
    }

    /// Appends the ranges, where short usages are of this page, and how many usages those up to each have.
    #[inline(always)]
    pub(crate) fn append_to(
        &self,
        ranges: &mut crate::rattle::Vec<(u32, u32)>,
        counts: &mut crate::rattle::Vec<u32>,
        page: u16,
    ) -> Result<(), AllocError> {
        let mut count = 0;
        for range in self.usages.as_slice() {
            let (first, last) = (range.first.on(page), range.last.on(page));
            count = count_with(count, first, last);
            ranges.push_in((first, last))?;
            counts.push_in(count)?;
        }
        Ok(())
    }
}

/// The number of usages with those of a range more. The ranges of a text without a fault have less than 2^32 usages.
#[inline(always)]
fn count_with(count: u32, first: u32, last: u32) -> u32 {
    count.wrapping_add(last.wrapping_sub(first)).wrapping_add(1)
}

/// What is wrong with a pair.
fn pair_fault(paired: bool, min: Usage, max: Usage) -> Option<ParseFault> {
    if !paired || !matches(min, max) {
        return Some(ParseFault::UnpairedUsage);
    }
    if raw(max) < raw(min) {
        Some(ParseFault::UsageInverted)
    } else {
        None
    }
}

/// Whether two usages have no page of their own, or the same one.
fn matches(min: Usage, max: Usage) -> bool {
    match (min, max) {
        (Usage::Short(_), Usage::Short(_)) => true,
        (Usage::Whole(a), Usage::Whole(b)) => a / 0x1_0000 == b / 0x1_0000,
        _ => false,
    }
}

/// The number as it is written.
fn raw(usage: Usage) -> u32 {
    match usage {
        Usage::Short(id) => id as u32,
        Usage::Whole(number) => number,
    }
}

#[allow(unused_imports)]
use crate::rattle::memory::*;
