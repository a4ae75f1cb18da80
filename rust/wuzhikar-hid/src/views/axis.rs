//! A value of an axis, in the measures of drivers.

use crate::Detail;

/// A value of an axis with what its field declares.
#[derive(Clone, Copy, Debug, PartialEq, Eq)]
pub struct Axis<'r> {
    /// The number in the report.
    pub raw: i64,
    /// Its field: extents, unit, flags.
    pub detail: &'r Detail,
}

/// Units by their digits (HID 1.11, section 6.2.2.7).
const CENTIMETRE: u32 = 0x11;
const INCH: u32 = 0x13;
const RADIAN: u32 = 0x12;
const DEGREE: u32 = 0x14;

impl Axis<'_> {
    /// Returns whether the value is added to the last one, as a mouse's.
    pub fn is_relative(&self) -> bool {
        self.detail.is_relative()
    }

    /// Returns where the value is between the logical extents, 0 to 1; `None` outside of them, or where they are equal or
    /// inverted.
    pub fn share(&self) -> Option<f64> {
        let Detail { min, max, .. } = *self.detail;
        (min < max && (min..=max).contains(&self.raw)).then(|| self.raw.abs_diff(min) as f64 / max.abs_diff(min) as f64)
    }

    /// Returns where the value is from the middle of the logical extents, -1 to 1, as of a stick; `None` as `share`.
    pub fn centred(&self) -> Option<f64> {
        self.share().map(|share| 2.0 * share - 1.0)
    }

    /// Returns the value in its unit, whatever that is; `None` where it has no physical one.
    pub fn physical(&self) -> Option<f64> {
        let physical = self.detail.physical_value(self.raw).ok()?;
        let (mut power, base) = (1.0, if physical.exponent < 0 { 0.1 } else { 10.0 });
        for _ in 0..physical.exponent.unsigned_abs().min(400) {
            power *= base;
        }
        Some(physical.numerator as f64 / physical.denominator as f64 * power)
    }

    /// Returns the value in millimetres; `None` where the unit is no length.
    pub fn millimetres(&self) -> Option<f64> {
        let length = match self.detail.unit {
            CENTIMETRE => 10.0,
            INCH => 25.4,
            _ => return None,
        };
        Some(self.physical()? * length)
    }

    /// Returns the value in degrees; `None` where the unit is no angle.
    pub fn degrees(&self) -> Option<f64> {
        let angle = match self.detail.unit {
            DEGREE => 1.0,
            RADIAN => 180.0 / core::f64::consts::PI,
            _ => return None,
        };
        Some(self.physical()? * angle)
    }
}
