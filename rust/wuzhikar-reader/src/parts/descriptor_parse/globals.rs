// Exported from crates/descriptor_parse/src/globals.rt by bin/export-rust. Edit that file instead.
//! The Global items that the parser uses (HID 1.11, 6.2.2.7).

use crate::parts::descriptor_parse::number::{signed, unsigned};
use crate::parts::descriptor_parse::stack::Stack;
use crate::parts::descriptor_parse::tag::GlobalTag;
use crate::rattle::alloc::AllocError;

/// The values of the Global items that the parser uses.
#[derive(Clone, Copy, Debug)]
pub struct Globals {
    /// The Usage Page.
    pub page: u16,
    /// The Logical Minimum.
    pub min: i64,
    /// The Logical Maximum, read as signed.
    pub signed_max: i64,
    /// The same, read as unsigned.
    pub unsigned_max: u32,
    /// The Report Size.
    pub size: u32,
    /// The Report Count.
    pub count: u32,
    /// The Report ID, 0 if there is none.
    pub id: u8,
}

impl Globals {
    /// Those before the first item.
    pub(crate) const NONE: Globals = Globals {
        page: 0,
        min: 0,
        signed_max: 0,
        unsigned_max: 0,
        size: 0,
        count: 0,
        id: 0,
    };

    /// The Logical Maximum: signed only under a negative minimum.
    pub fn max(&self) -> i64 {
        if self.min < 0 {
            self.signed_max
        } else {
            self.unsigned_max as i64
        }
    }
}

impl Globals {
    /// Sets the value that an item other than Push and Pop gives.
    #[inline(always)]
    fn set(&mut self, tag: GlobalTag, bytes: &[u8]) {
        match tag {
            GlobalTag::UsagePage => self.page = (unsigned(bytes) % 0x1_0000) as u16,
            GlobalTag::LogicalMinimum => self.min = signed(bytes),
            GlobalTag::LogicalMaximum => {
                self.signed_max = signed(bytes);
                self.unsigned_max = unsigned(bytes);
            }
            GlobalTag::ReportSize => self.size = unsigned(bytes),
            GlobalTag::ReportId => self.id = (unsigned(bytes) % 0x100) as u8,
            GlobalTag::ReportCount => self.count = unsigned(bytes),
            GlobalTag::Push | GlobalTag::Pop => {}
        }
    }
}

/// Takes a Global item.
#[inline(always)]
pub(crate) fn take_global(
    globals: &mut Stack<Globals>,
    tag: GlobalTag,
    bytes: &[u8],
) -> Result<(), AllocError> {
    match tag {
        GlobalTag::Push => globals.save()?,
        GlobalTag::Pop => globals.restore(),
        _ => globals.now.set(tag, bytes),
    }
    Ok(())
}
