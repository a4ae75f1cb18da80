// Exported from crates/field_details/src/naming.rt by bin/export-rust. Edit that file instead.
//! Strings and designators, and the Local items that declare them (HID 1.11, 6.2.2.8).

use wuzhikar_reader::parts::descriptor_parse::Item;
use wuzhikar_reader::parts::descriptor_parse::number::unsigned;

/// What names a control for a person: a string, or a part of the body.
#[derive(Clone, Copy, Debug, PartialEq, Eq)]
pub(crate) enum Naming {
    /// String Index, String Minimum and String Maximum: numbers of string descriptors.
    Strings,
    /// Designator Index, Designator Minimum and Designator Maximum: numbers in the physical descriptor.
    Designators,
}

impl Naming {
    /// The prefix of its Index, without the size of its data.
    fn index(self) -> u8 {
        match self {
            Naming::Strings => 0x78,
            Naming::Designators => 0x38,
        }
    }

    /// That of its Minimum.
    fn minimum(self) -> u8 {
        match self {
            Naming::Strings => 0x88,
            Naming::Designators => 0x48,
        }
    }

    /// That of its Maximum.
    fn maximum(self) -> u8 {
        match self {
            Naming::Strings => 0x98,
            Naming::Designators => 0x58,
        }
    }
}

/// The range that an item makes, where this Minimum waits.
#[inline(always)]
pub(crate) fn range_of(naming: Naming, item: &Item<'_>, least: Option<u32>) -> Option<(u32, u32)> {
    let prefix = item.prefix - item.prefix % 4;
    if prefix == naming.index() {
        let number = unsigned(item.bytes);
        return Some((number, number));
    }
    if prefix != naming.maximum() {
        return None;
    }
    match least {
        Some(least) => Some((least, unsigned(item.bytes))),
        None => None,
    }
}

/// The Minimum that waits after an item.
#[inline(always)]
pub(crate) fn least_after(naming: Naming, item: &Item<'_>, least: Option<u32>) -> Option<u32> {
    let prefix = item.prefix - item.prefix % 4;
    if prefix == naming.minimum() {
        return Some(unsigned(item.bytes));
    }
    if prefix == naming.maximum() {
        None
    } else {
        least
    }
}
