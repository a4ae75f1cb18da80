//! What a value is in its unit, as text. Written by hand: tested, not proved; the value itself is that of the proved source.

pub use crate::parts::field_values::{NoPhysical, Physical};

use crate::Detail;
use crate::parts::field_values::{Extents, physical_value};
use alloc::string::String;
use core::fmt;

impl fmt::Display for NoPhysical {
    fn fmt(&self, f: &mut fmt::Formatter<'_>) -> fmt::Result {
        f.write_str(match self {
            NoPhysical::EqualLimits => "the logical extents are equal",
            NoPhysical::InvertedLimits => "the Logical Minimum is over the Logical Maximum",
            NoPhysical::LargeExtents => "a physical extent is over 2^32 or under -2^32",
        })
    }
}

impl core::error::Error for NoPhysical {}

/// Why no value of a field is so much in its unit.
#[derive(Clone, Copy, Debug, PartialEq, Eq)]
pub enum NoValue {
    /// The values of the field have no physical ones.
    NoPhysical(NoPhysical),
    /// No value within the logical extents is just so much, or all are.
    NoStep,
}

impl fmt::Display for NoValue {
    fn fmt(&self, f: &mut fmt::Formatter<'_>) -> fmt::Result {
        match self {
            NoValue::NoPhysical(why) => why.fmt(f),
            NoValue::NoStep => f.write_str("no value of the field is just so much"),
        }
    }
}

impl core::error::Error for NoValue {}

impl Detail {
    /// Returns the value within the logical extents that is just `numerator` / `denominator` in the unit, its power of ten
    /// counted in. [`physical_value`](Detail::physical_value) of it is that.
    ///
    /// # Errors
    ///
    /// `NoPhysical` says why the values of the field have no physical ones. Else `NoStep`: the denominator is 0, no value
    /// within the logical extents is just so much, or all of several are.
    ///
    /// ```
    /// use wuzhikar_hid::{NoPhysical, NoValue, details};
    ///
    /// // A dial of 0 to 15 for 0 to 270 degrees, and a bit without extents.
    /// let text = [
    ///     0x05, 0x01, 0x09, 0x37, 0x25, 0x0f, 0x46, 0x0e, 0x01, 0x65, 0x14, 0x75, 8, 0x95, 1, 0x81, 0x02, 0x25, 0x00, 0x75, 1,
    ///     0x81, 0x02,
    /// ];
    /// let details = details(&text)?;
    /// let dial = details.fields[0];
    /// let physical = dial.physical_value(5)?;
    /// assert_eq!((physical.numerator, physical.denominator, physical.exponent), (90, 1, 0));
    /// assert_eq!(physical.decimal(1), "90");
    /// assert_eq!(dial.value_of(90, 1), Ok(5));
    /// assert_eq!(dial.value_of(91, 1), Err(NoValue::NoStep));
    /// assert_eq!(details.fields[1].physical_value(1), Err(NoPhysical::EqualLimits));
    /// # Ok::<(), Box<dyn std::error::Error>>(())
    /// ```
    pub fn value_of(&self, numerator: i64, denominator: u64) -> Result<i64, NoValue> {
        self.physical_value(self.min).map_err(NoValue::NoPhysical)?;
        let value = self.step(numerator, denominator).ok_or(NoValue::NoStep)?;
        let exact = self.physical_value(value).map_err(NoValue::NoPhysical)?;
        let asked = scaled(numerator, denominator, self.exponent).ok_or(NoValue::NoStep)?;
        if (exact.numerator, exact.denominator) == asked { Ok(value) } else { Err(NoValue::NoStep) }
    }

    /// The one value on the line.
    fn step(&self, numerator: i64, denominator: u64) -> Option<i64> {
        let ((above, below), (least, greatest)) = (scaled(numerator, denominator, self.exponent)?, self.physical());
        let (span, rise) = (i128::from(self.max) - i128::from(self.min), i128::from(greatest) - i128::from(least));
        let over = above.checked_sub(i128::from(least).checked_mul(below)?)?.checked_mul(span)?;
        let step = rise.checked_mul(below)?;
        // (Neither divides by 0.)
        if over.checked_rem(step)? != 0 {
            return None;
        }
        let value = i64::try_from(over.checked_div(step)?.checked_add(i128::from(self.min))?).ok()?;
        (self.min..=self.max).contains(&value).then_some(value)
    }
}

/// A fraction over a power of ten, in lowest terms; `None` where it does not fit, as no physical value does then.
fn scaled(numerator: i64, denominator: u64, exponent: i64) -> Option<(i128, i128)> {
    let (above, below) = (i128::from(numerator), i128::from(denominator));
    if below == 0 || above == 0 {
        return (below != 0).then_some((0, 1));
    }
    let power = 10i128.checked_pow(u32::try_from(exponent.unsigned_abs()).ok()?)?;
    let (above, below) = if exponent < 0 { (above.checked_mul(power)?, below) } else { (above, below.checked_mul(power)?) };
    let (mut divisor, mut rest) = (above.unsigned_abs(), below.unsigned_abs());
    while rest != 0 {
        (divisor, rest) = (rest, divisor % rest);
    }
    let divisor = i128::try_from(divisor).ok()?;
    Some((above / divisor, below / divisor))
}

impl Detail {
    /// Returns the physical value of a logical one, on the line through the logical and the physical extents, also past
    /// their ends (HID 1.11, section 6.2.2.7).
    ///
    /// # Errors
    ///
    /// `NoPhysical` if these extents make no line.
    pub fn physical_value(&self, value: i64) -> Result<Physical, NoPhysical> {
        let (min, max) = self.physical();
        physical_value(Extents { min: self.min, max: self.max }, Extents { min, max }, self.exponent, value)
    }
}

impl Physical {
    /// Returns the value as a decimal, cut to so many digits after the point, at most 18.
    ///
    /// `e` and the power of ten follow if that is beyond 18 either way, or the whole would have more than 38 digits.
    pub fn decimal(&self, digits: u32) -> String {
        let mut text = String::new();
        let _ = self.write_decimal(digits, &mut text);
        text
    }

    /// Writes what [`decimal`](Physical::decimal) gives, and takes no memory itself. An error is that of `out`.
    pub fn write_decimal(&self, digits: u32, out: &mut impl fmt::Write) -> fmt::Result {
        let (mut above, mut below, mut left) = (self.numerator, self.denominator, self.exponent);
        if (-18..=18).contains(&left) {
            let scale = 10i128.pow(left.unsigned_abs() as u32);
            match (left < 0, above.checked_mul(scale), below.checked_mul(scale)) {
                (false, Some(scaled), _) => (above, left) = (scaled, 0),
                (true, _, Some(scaled)) => (below, left) = (scaled, 0),
                _ => {}
            }
        }
        let (whole, rest) = (above.unsigned_abs() / below.unsigned_abs(), above.unsigned_abs() % below.unsigned_abs());
        let behind = digits_behind(rest, below.unsigned_abs(), digits.min(18));
        // (What is cut off to nothing has no sign.)
        let sign = if above < 0 && (whole, behind.1) != (0, 0) { "-" } else { "" };
        write!(out, "{sign}{whole}")?;
        if behind.1 > 0 {
            write!(out, ".{:0count$}", behind.0, count = behind.1)?;
        }
        if left != 0 {
            write!(out, "e{left}")?;
        }
        Ok(())
    }
}

/// The digits after the point of a fraction below 1, at most so many, without zeros at the end: their number, and how many
/// they are.
fn digits_behind(mut rest: u128, below: u128, most: u32) -> (u64, usize) {
    let (mut number, mut count) = (0u64, 0);
    for _ in 0..most {
        rest *= 10;
        (number, rest, count) = (number * 10 + (rest / below) as u64, rest % below, count + 1);
    }
    while count > 0 && number % 10 == 0 {
        (number, count) = (number / 10, count - 1);
    }
    (number, count)
}
