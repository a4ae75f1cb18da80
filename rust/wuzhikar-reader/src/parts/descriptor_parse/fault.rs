// Exported from crates/descriptor_parse/src/fault.rt by bin/export-rust. Edit that file instead.
//! What is wrong with a text, and where.

/// The faults of a report descriptor, by their numbers. Where several fall on one item, the least is reported.
#[derive(Clone, Copy, Debug, PartialEq, Eq)]
pub enum ParseFault {
    /// The text ends within an item.
    Truncated = 1,
    /// A Delimiter item.
    Delimiter = 2,
    /// A Pop without a Push left.
    PopEmpty = 3,
    /// A Push onto eight.
    PushDeep = 4,
    /// A Report ID of 0 or over 255.
    BadReportId = 5,
    /// A data item of more than 32 bits, or of more than 1,024 if it is Constant.
    SizeTooLarge = 6,
    /// A data item with a count over 1,024.
    CountTooLarge = 7,
    /// An End Collection with none open.
    EndWithoutCollection = 8,
    /// A Collection within sixteen open ones.
    CollectionDeep = 9,
    /// A second Usage Minimum or Maximum before its pair, a pair that does not match, or a Main item with one left.
    UnpairedUsage = 10,
    /// A Usage Minimum over its Maximum, reported at the second of the pair.
    UsageInverted = 11,
    /// An array whose Logical Minimum is over its Logical Maximum.
    LogicalInverted = 12,
    /// A data item that would be field 257.
    TooManyFields = 13,
    /// A Report ID after a data item without one in force, or a data item without one in force after a Report ID.
    MixedIds = 14,
    /// The text ends within a collection; the offset is its length.
    CollectionOpen = 15,
    /// The text is longer than 4,096 bytes; the offset is 4,096.
    TooLong = 16,
    /// A growth was refused at this item.
    Memory = 17,
}

impl ParseFault {
    /// Returns the number of the fault, 1 to 17.
    pub fn number(self) -> u8 {
        self as u8
    }
}

/// A fault, and the offset of the first byte of the item that it falls on.
#[derive(Clone, Copy, Debug, PartialEq, Eq)]
pub struct ParseError {
    pub fault: ParseFault,
    pub offset: usize,
}

impl core::fmt::Display for ParseError {
    fn fmt(&self, f: &mut core::fmt::Formatter<'_>) -> core::fmt::Result {
        match self {
            Self { fault, offset } => write!(f, "fault {} at {offset}: {fault:?}", fault.number()),
        }
    }
}

impl core::error::Error for ParseError {}
