// Exported from crates/control_ep/src/report.rt by bin/export-rust. Edit that file instead.
//! The reports that the host sends.

use crate::parts::control_ep::request::HostReport;
use crate::parts::control_ep::{Received, Why};

/// The bits of the LED byte that stand for LEDs.
const LED_BITS: u8 = 0x1F;

/// What the packet of a report comes to. In this order `ShortData` and `LongData` for another length, and
/// `UnknownReport` for another Report ID.
pub(crate) fn received_report(report: HostReport, packet: &[u8]) -> Result<Received, Why> {
    let length = report.length();
    if packet.len() < length {
        return Err(Why::ShortData);
    }
    if packet.len() > length {
        return Err(Why::LongData);
    }
    match (report, packet) {
        (HostReport::LedsWithId, [0x01, leds]) => Ok(Received::Leds(*leds & LED_BITS)),
        (HostReport::LedsAlone, [leds]) => Ok(Received::Leds(*leds & LED_BITS)),
        (HostReport::Feature, [0x03, op, layer, key, low, high]) => {
            Ok(Received::Offer([*op, *layer, *key, *low, *high]))
        }
        _ => Err(Why::UnknownReport),
    }
}
