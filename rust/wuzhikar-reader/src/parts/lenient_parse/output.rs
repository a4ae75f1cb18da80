// Exported from crates/lenient_parse/src/output.rt by bin/export-rust. Edit that file instead.
//! The text that is parsed in place of another one, as it grows.

use crate::parts::lenient_parse::sizes::Sizes;
use crate::parts::lenient_parse::state::{Instead, State};
use crate::parts::descriptor_parse::{Item, ParseError};
use crate::rattle::alloc::{AllocError, Global};

pub(crate) struct Output {
    pub(crate) text: crate::rattle::Vec<u8>,
    /// The offset of the item that each byte comes from.
    pub(crate) origins: crate::rattle::Vec<usize>,
    /// The faults that were passed over.
    pub(crate) passed: crate::rattle::Vec<ParseError>,
}

/// The prefix of a long item.
const LONG: u8 = 0xFE;

/// How many bytes write padding.
const PADDING: usize = 25;

impl Output {
    pub(crate) fn new(alloc: Global) -> Output {
        Output {
            text: crate::rattle::vec::new(alloc),
            origins: crate::rattle::vec::new(alloc),
            passed: crate::rattle::vec::new(alloc),
        }
    }

    /// Puts what stands in place of an item.
    pub(crate) fn take(
        &mut self,
        state: &State,
        item: &Item<'_>,
        more: &[Item<'_>],
    ) -> Result<(), AllocError> {
        self.tell(state, item, more)?;
        match state.instead(item, more) {
            Instead::Item => self.put_item(item),
            Instead::Nothing => Ok(()),
            Instead::Padding => {
                let padding = padding(item.prefix, &state.sizes.now);
                self.put(item.offset, &padding)?;
                Ok(())
            }
        }
    }

    /// Notes the fault that is passed over at an item.
    fn tell(&mut self, state: &State, item: &Item<'_>, more: &[Item<'_>]) -> Result<(), AllocError> {
        if let Some(fault) = state.passed(item, more) {
            self.passed.push_in(ParseError {
                fault,
                offset: item.offset,
            })?;
        }
        Ok(())
    }

    /// Puts an item itself.
    fn put_item(&mut self, item: &Item<'_>) -> Result<(), AllocError> {
        if item.prefix == LONG {
            return Ok(());
        }
        self.put(item.offset, &[item.prefix])?;
        self.put(item.offset, item.bytes)
    }

    /// Puts bytes that come from an offset.
    pub(crate) fn put(&mut self, offset: usize, bytes: &[u8]) -> Result<(), AllocError> {
        self.text.extend_in(bytes)?;
        self.put_origins(offset, bytes.len())
    }

    /// Notes that so many bytes come from an offset.
    fn put_origins(&mut self, offset: usize, count: usize) -> Result<(), AllocError> {
        let mut done = 0;
        while done < count {
            self.origins.push_in(offset)?;
            done += 1;
        }
        Ok(())
    }
}

/// Padding in place of a data item.
fn padding(prefix: u8, sizes: &Sizes) -> [u8; PADDING] {
    let Sizes { size, count } = *sizes;
    let bits = size as u64 * count as u64;
    let constant = prefix - prefix % 4 + 1;
    let (places, left) = (bits / 1024, bits % 1024);
    [
        0x76,
        0x00,
        0x04,
        0x96,
        byte_0(places),
        byte_1(places),
        constant,
        1,
        0x76,
        byte_0(left),
        byte_1(left),
        0x95,
        1,
        constant,
        1,
        0x77,
        byte_0(size as u64),
        byte_1(size as u64),
        byte_2(size as u64),
        byte_3(size as u64),
        0x97,
        byte_0(count as u64),
        byte_1(count as u64),
        byte_2(count as u64),
        byte_3(count as u64),
    ]
}

fn byte_0(number: u64) -> u8 {
    (number % 0x100) as u8
}

fn byte_1(number: u64) -> u8 {
    (number / 0x100 % 0x100) as u8
}

fn byte_2(number: u64) -> u8 {
    (number / 0x1_0000 % 0x100) as u8
}

fn byte_3(number: u64) -> u8 {
    (number / 0x100_0000 % 0x100) as u8
}

#[allow(unused_imports)]
use crate::rattle::memory::*;
