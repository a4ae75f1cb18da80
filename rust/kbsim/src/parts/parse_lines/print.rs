// Exported from crates/parse_lines/src/print.rt by bin/export-rust. Edit that file instead.
//! Fields, bytes and faults as lines.

use crate::parts::parse_lines::LinesError;
use wuzhikar_reader::parts::descriptor_parse::{Field, Kind};
use core::fmt;
use crate::parts::text_io::{HexDigits, HexWord};

/// The line of a field with these usages.
pub(crate) struct FieldLine<'a> {
    pub(crate) field: &'a Field,
    pub(crate) ranges: &'a [(u32, u32)],
}

impl fmt::Display for FieldLine<'_> {
    fn fmt(&self, f: &mut fmt::Formatter<'_>) -> fmt::Result {
        let place = Place(self.field);
        let values = Values(self.field);
        let usages = Usages(self.ranges);
        writeln!(f, "{place} {values} {usages}")
    }
}

/// A line of a name and bytes.
pub(crate) struct HexLine<'a>(pub(crate) &'a str, pub(crate) &'a [u8]);

impl fmt::Display for HexLine<'_> {
    fn fmt(&self, f: &mut fmt::Formatter<'_>) -> fmt::Result {
        let name = self.0;
        let digits = HexDigits(self.1);
        writeln!(f, "{name} {digits}")
    }
}

/// The line of a fault; nothing where it has none.
pub(crate) struct FaultLine(pub(crate) LinesError);

impl fmt::Display for FaultLine {
    fn fmt(&self, f: &mut fmt::Formatter<'_>) -> fmt::Result {
        match self.0 {
            LinesError::BadHexText => f.write_str("fault hex\n"),
            LinesError::Refused(refusal) => {
                let number = refusal.fault.number();
                let offset = refusal.offset;
                writeln!(f, "fault parse {number} at {offset}")
            }
            LinesError::TooLong => f.write_str("fault too long\n"),
            LinesError::Input => f.write_str("fault input\n"),
            LinesError::Memory => f.write_str("fault memory\n"),
            LinesError::Output => Ok(()),
        }
    }
}

fn kind_name(kind: Kind) -> &'static str {
    match kind {
        Kind::Input => "input",
        Kind::Output => "output",
        Kind::Feature => "feature",
    }
}

fn form_name(array: bool) -> &'static str {
    if array { "array" } else { "variable" }
}

/// Where a field stands: its kind, report ID, first bit, bits of a place and number of places.
struct Place<'a>(&'a Field);

impl fmt::Display for Place<'_> {
    fn fmt(&self, f: &mut fmt::Formatter<'_>) -> fmt::Result {
        let kind = kind_name(self.0.kind);
        let id = self.0.id;
        let bit = self.0.bit;
        let size = self.0.size;
        let count = self.0.count;
        write!(f, "{kind} {id} {bit} {size} {count}")
    }
}

/// What values a place of a field has: the least, the greatest, and the form.
struct Values<'a>(&'a Field);

impl fmt::Display for Values<'_> {
    fn fmt(&self, f: &mut fmt::Formatter<'_>) -> fmt::Result {
        let min = self.0.min;
        let max = self.0.max;
        let form = form_name(self.0.array);
        write!(f, "{min} {max} {form}")
    }
}

/// The usages of a field as lines show them.
struct Usages<'a>(&'a [(u32, u32)]);

impl fmt::Display for Usages<'_> {
    fn fmt(&self, f: &mut fmt::Formatter<'_>) -> fmt::Result {
        let Some((first, more)) = self.0.split_first() else {
            return f.write_str("-");
        };
        let range = Range(*first);
        write!(f, "{range}")?;
        for next in more {
            let range = Range(*next);
            write!(f, ",{range}")?;
        }
        Ok(())
    }
}

/// The usages of a range, its first and its last.
struct Range((u32, u32));

impl fmt::Display for Range {
    fn fmt(&self, f: &mut fmt::Formatter<'_>) -> fmt::Result {
        let (first, last) = self.0;
        let first_word = HexWord(first);
        if first == last {
            return write!(f, "{first_word}");
        }
        let last_word = HexWord(last);
        write!(f, "{first_word}-{last_word}")
    }
}
