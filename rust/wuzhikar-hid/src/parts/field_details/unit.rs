// Exported from crates/field_details/src/unit.rt by bin/export-rust. Edit that file instead.
//! What a unit is made of.

/// What a unit can be made of (HID 1.11, 6.2.2.7).
#[derive(Clone, Copy, Debug, PartialEq, Eq)]
pub enum Dimension {
    /// Centimetres, radians, inches or degrees, by the system.
    Length,
    /// Grams or slugs.
    Mass,
    /// Seconds.
    Time,
    /// Kelvins or degrees Fahrenheit.
    Temperature,
    /// Amperes.
    Current,
    /// Candelas.
    LuminousIntensity,
}

impl Dimension {
    /// All of them, by their digits in the unit, the lowest first.
    pub const ALL: [Dimension; 6] = [
        Dimension::Length,
        Dimension::Mass,
        Dimension::Time,
        Dimension::Temperature,
        Dimension::Current,
        Dimension::LuminousIntensity,
    ];
}

/// The digit of a dimension in a unit, four bits.
pub(crate) fn digit_of(dimension: Dimension, unit: u32) -> u8 {
    let above = match dimension {
        Dimension::Length => unit / 0x10,
        Dimension::Mass => unit / 0x100,
        Dimension::Time => unit / 0x1000,
        Dimension::Temperature => unit / 0x1_0000,
        Dimension::Current => unit / 0x10_0000,
        Dimension::LuminousIntensity => unit / 0x100_0000,
    };
    (above % 16) as u8
}

/// A digit of four bits in two's complement.
pub(crate) fn signed_digit(digit: u8) -> i8 {
    if digit < 8 {
        digit as i8
    } else {
        digit as i8 - 16
    }
}
