// Exported from crates/field_details/src/extents.rt by bin/export-rust. Edit that file instead.
//! The Global items that the parser of fields skips (HID 1.11, 6.2.2.7).

use crate::parts::field_details::unit::signed_digit;
use wuzhikar_reader::parts::descriptor_parse::GlobalTag;
use wuzhikar_reader::parts::descriptor_parse::number::{signed, unsigned};
use wuzhikar_reader::parts::descriptor_parse::stack::Stack;
use crate::rattle::alloc::AllocError;

/// Physical extents and unit.
#[derive(Clone, Copy)]
pub(crate) struct Extents {
    pub(crate) min: i64,
    /// The Physical Maximum, read as signed.
    pub(crate) signed_max: i64,
    /// The same, read as unsigned.
    pub(crate) unsigned_max: u32,
    /// The power of ten of the unit.
    pub(crate) exponent: i64,
    pub(crate) unit: u32,
}

impl Extents {
    /// Those before the first item.
    pub(crate) const NONE: Extents = Extents {
        min: 0,
        signed_max: 0,
        unsigned_max: 0,
        exponent: 0,
        unit: 0,
    };

    /// The Physical Maximum: signed only under a negative minimum.
    pub(crate) fn greatest(&self) -> i64 {
        if self.min < 0 {
            self.signed_max
        } else {
            self.unsigned_max as i64
        }
    }

    /// Sets the value that an item gives, if it gives one.
    fn set(&mut self, prefix: u8, bytes: &[u8]) {
        match prefix - prefix % 4 {
            0x34 => self.min = signed(bytes),
            0x44 => {
                self.signed_max = signed(bytes);
                self.unsigned_max = unsigned(bytes);
            }
            0x54 => self.exponent = power(bytes),
            0x64 => self.unit = unsigned(bytes),
            _ => {}
        }
    }
}

/// The power of ten that data say.
fn power(bytes: &[u8]) -> i64 {
    let digit = unsigned(bytes);
    if digit < 16 {
        signed_digit(digit as u8) as i64
    } else {
        signed(bytes)
    }
}

/// Takes a Global item that the parser of fields reads.
pub(crate) fn take_global(extents: &mut Stack<Extents>, tag: GlobalTag) -> Result<(), AllocError> {
    match tag {
        GlobalTag::Push => extents.save()?,
        GlobalTag::Pop => extents.restore(),
        _ => {}
    }
    Ok(())
}

/// Takes an item that it skips.
pub(crate) fn take_skipped(extents: &mut Stack<Extents>, prefix: u8, bytes: &[u8]) {
    extents.now.set(prefix, bytes);
}
