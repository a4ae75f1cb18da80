//! Units and types of collections by their names. Written by hand: tested, not proved.

use crate::parts::field_details::{Collection, Detail, Dimension};
use core::fmt;

impl Detail {
    /// Returns the exponents of all dimensions of the unit, in the order of [`Dimension::ALL`]; all 0 if no unit is declared.
    ///
    /// # Errors
    ///
    /// `NoUnit` if the digits are none of HID 1.11, section 6.2.2.7.
    ///
    /// ```
    /// use wuzhikar_hid::{Dimension, NoUnit, details};
    ///
    /// // A speed in centimetres per second, and a field in a unit of the vendor's.
    /// let text = [
    ///     0x05, 0x01, 0x09, 0x40, 0x25, 0x7f, 0x75, 8, 0x95, 1, 0x66, 0x11, 0xf0, 0x81, 0x02, 0x09, 0x41, 0x65, 0x1f, 0x81, 0x02,
    /// ];
    /// let details = details(&text)?;
    /// assert_eq!(details.fields[0].unit_name(), Some("centimetre per second"));
    /// assert_eq!(details.fields[0].unit_exponents(), Ok([1, 0, -1, 0, 0, 0]));
    /// assert_eq!(details.fields[0].unit_exponent_of(Dimension::Time), -1);
    /// assert_eq!(details.fields[1].unit_exponents(), Err(NoUnit::Vendor));
    /// # Ok::<(), wuzhikar_hid::ReaderError>(())
    /// ```
    pub fn unit_exponents(&self) -> Result<[i8; 6], NoUnit> {
        match self.unit_system() {
            _ if self.unit_reserved() != 0 => Err(NoUnit::ReservedDigit),
            0 if self.unit != 0 => Err(NoUnit::NoSystem),
            5..=14 => Err(NoUnit::ReservedSystem),
            15 => Err(NoUnit::Vendor),
            _ => Ok(Dimension::ALL.map(|dimension| self.unit_exponent_of(dimension))),
        }
    }

    /// Returns the name of a usual unit, as "centimetre"; `None` for one that is made up of others.
    pub fn unit_name(&self) -> Option<&'static str> {
        Some(match self.unit {
            0x11 => "centimetre",
            0x12 => "radian",
            0x13 => "inch",
            0x14 => "degree",
            0x101 => "gram",
            0x103 => "slug",
            0x1001..=0x1004 => "second",
            0x1_0001 | 0x1_0002 => "kelvin",
            0x1_0003 | 0x1_0004 => "degree Fahrenheit",
            0x10_0001..=0x10_0004 => "ampere",
            0x100_0001..=0x100_0004 => "candela",
            0xF001..=0xF004 => "hertz",
            0xF011 => "centimetre per second",
            0xE011 => "centimetre per second squared",
            0xF012 => "radian per second",
            0xF014 => "degree per second",
            0xE012 => "radian per second squared",
            0xE014 => "degree per second squared",
            0xE111 => "dyne",
            0xE121 => "erg",
            0xD121 => "erg per second",
            0xE1F1 => "barye",
            0x0010_1001 => "coulomb",
            _ => return None,
        })
    }
}

/// Why the digits of a unit are none that HID 1.11 (6.2.2.7) knows. If several hold, the first is reported.
#[derive(Clone, Copy, Debug, PartialEq, Eq)]
pub enum NoUnit {
    /// The highest digit, which is reserved, is not 0.
    ReservedDigit,
    /// There are exponents, and the system is none.
    NoSystem,
    /// The system is reserved: 5 to 14.
    ReservedSystem,
    /// The system is the vendor's: 15.
    Vendor,
}

impl fmt::Display for NoUnit {
    fn fmt(&self, f: &mut fmt::Formatter<'_>) -> fmt::Result {
        f.write_str(match self {
            NoUnit::ReservedDigit => "the highest digit of the unit is reserved",
            NoUnit::NoSystem => "the unit has exponents and no system",
            NoUnit::ReservedSystem => "the system of the unit is reserved",
            NoUnit::Vendor => "the system of the unit is the vendor's",
        })
    }
}

impl core::error::Error for NoUnit {}

impl Collection {
    /// Returns the name of its type; `None` if it is reserved or the vendor's.
    pub fn kind_name(&self) -> Option<&'static str> {
        const NAMES: [&str; 7] =
            ["Physical", "Application", "Logical", "Report", "Named Array", "Usage Switch", "Usage Modifier"];
        NAMES.get(self.kind as usize).copied()
    }
}
