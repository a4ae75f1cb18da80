// Exported from crates/parse_lines/src/served.rt by bin/export-rust. Edit that file instead.
//! The descriptors that the keyboard serves, as lines.

use crate::parts::parse_lines::LinesError;
use crate::parts::parse_lines::print::HexLine;
use wuzhikar::parts::descriptor_build::{CONFIGURATION, DEVICE, served_report};
use core::fmt;
use std::io::Write;
use crate::parts::text_io::Printer;

/// Prints the descriptors that the keyboard serves: `device HEX`, `configuration HEX` and `report HEX`, each on a line
/// of its own, in lower case (USB 2.0, section 9.6; HID 1.11, section 6.2.2).
///
/// `Output` comes where the writer fails or takes no byte; nothing is printed after it. There is no other error.
pub fn describe<W: Write>(writer: &mut W) -> Result<(), LinesError> {
    let report = served_report();
    let mut printer = Printer::new(writer);
    if printer.print(&Described(report.as_slice())).is_err() || printer.finish().is_err() {
        return Err(LinesError::Output);
    }
    Ok(())
}

/// The three lines, the last of these bytes.
struct Described<'a>(&'a [u8]);

impl fmt::Display for Described<'_> {
    fn fmt(&self, f: &mut fmt::Formatter<'_>) -> fmt::Result {
        let device = HexLine("device", &DEVICE);
        let configuration = HexLine("configuration", &CONFIGURATION);
        let report = HexLine("report", self.0);
        write!(f, "{device}{configuration}{report}")
    }
}
