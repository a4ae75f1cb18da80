// Exported from crates/field_details/src/detail.rt by bin/export-rust. Edit that file instead.
//! What a data item says.

use crate::parts::field_details::unit::{Dimension, digit_of, signed_digit};
use wuzhikar_reader::parts::descriptor_parse::Kind;

/// What an Input, Output or Feature item declares: `count` places of `size` bits (HID 1.11, 6.2.2.4 to 6.2.2.7).
#[derive(Clone, Copy, Debug, PartialEq, Eq)]
pub struct Detail {
    /// The offset of the item in the text, in bytes.
    pub offset: usize,
    /// Input, Output or Feature.
    pub kind: Kind,
    /// The data of the item; the methods read each bit.
    pub flags: u32,
    /// The Report ID, 0 where none is in force.
    pub id: u32,
    /// The first bit in the report, after the ID byte, as that of a `Field` counts.
    pub bit: u64,
    /// The bits of a place.
    pub size: u32,
    /// The places.
    pub count: u32,
    /// The Logical Minimum.
    pub min: i64,
    /// The Logical Maximum, signed only under a negative minimum.
    pub max: i64,
    /// The Physical Minimum as declared, 0 where it is not; [`physical`](Detail::physical) says which extents hold.
    pub physical_min: i64,
    /// The Physical Maximum as declared, 0 where it is not, signed only under a negative minimum.
    pub physical_max: i64,
    /// The digits of the unit, 0 where none is declared.
    pub unit: u32,
    /// The power of ten of the unit: data of 0 to 15 are a digit of four bits in two's complement, as the standard says,
    /// and others the number that they make in two's complement.
    pub exponent: i64,
    /// The number of the innermost collection around it, if there is one.
    pub inside: Option<usize>,
}

impl Detail {
    /// Bit 0: Constant, as padding is, and not Data (HID 1.11, 6.2.2.5).
    #[inline(always)]
    pub fn is_constant(&self) -> bool {
        self.flags % 2 == 1
    }

    /// Bit 1: Variable, so that each place has a usage of its own, and not Array.
    pub fn is_variable(&self) -> bool {
        self.flags / 0x2 % 2 == 1
    }

    /// Bit 2: Relative to the last value, and not Absolute.
    pub fn is_relative(&self) -> bool {
        self.flags / 0x4 % 2 == 1
    }

    /// Bit 3: Wrap: the value goes from one extent to the other.
    pub fn wraps(&self) -> bool {
        self.flags / 0x8 % 2 == 1
    }

    /// Bit 4: Non Linear: the value is no linear measure.
    pub fn is_nonlinear(&self) -> bool {
        self.flags / 0x10 % 2 == 1
    }

    /// Bit 5: No Preferred: there is no state to which the control returns by itself.
    pub fn has_no_preferred_state(&self) -> bool {
        self.flags / 0x20 % 2 == 1
    }

    /// Bit 6: Null State: a value outside the logical extents says that there is none.
    pub fn has_null_state(&self) -> bool {
        self.flags / 0x40 % 2 == 1
    }

    /// Bit 7: Volatile: the value may change without the host. Of an Input it is reserved.
    pub fn is_volatile(&self) -> bool {
        self.flags / 0x80 % 2 == 1
    }

    /// Bit 8: Buffered Bytes, and not a number in the bits.
    pub fn is_buffered(&self) -> bool {
        self.flags / 0x100 % 2 == 1
    }

    /// The physical extents, least and greatest: those that are declared, 0 where one is not, and the logical ones where
    /// both are 0 (6.2.2.7).
    pub fn physical(&self) -> (i64, i64) {
        if self.physical_min == 0 && self.physical_max == 0 {
            (self.min, self.max)
        } else {
            (self.physical_min, self.physical_max)
        }
    }

    /// The lowest digit of the unit, its system: 0 none, 1 SI linear (centimetre, gram, kelvin), 2 SI rotation (radian),
    /// 3 English linear (inch, slug, degree Fahrenheit), 4 English rotation (degree); seconds, amperes and candelas in
    /// each. 5 to 14 are reserved, and 15 is the vendor's.
    pub fn unit_system(&self) -> u8 {
        (self.unit % 16) as u8
    }

    /// The exponent of a dimension in the unit, -8 to 7: its digit in two's complement.
    pub fn unit_exponent_of(&self, dimension: Dimension) -> i8 {
        signed_digit(digit_of(dimension, self.unit))
    }

    /// The highest digit of the unit, which is reserved: 0 in a unit that the standard knows.
    pub fn unit_reserved(&self) -> u8 {
        (self.unit / 0x1000_0000) as u8
    }

    /// The bit after its last one; `u64::MAX` where 64 bits don't count so far.
    pub fn end(&self) -> u64 {
        let bits = self.size as u64 * self.count as u64;
        self.bit.saturating_add(bits)
    }
}
