// Exported from crates/control_ep/src/device.rt by bin/export-rust. Edit that file instead.
//! The device that a SETUP packet is answered from.

use crate::parts::control_ep::DeviceView;
use crate::parts::reports::Protocol;
use crate::parts::reports::words::words_of;

/// A device that a SETUP packet is answered from. Each part is asked for only where the packet reads it,
/// so that a report's bytes need not be there before.
pub trait DeviceReports {
    /// Which reports exist, and the answer of GET_PROTOCOL.
    fn protocol(&self) -> Protocol;

    /// The idle value of Report ID 1, in units of 4 ms.
    fn idle_one(&self) -> u8;

    /// The idle value of Report ID 2, in units of 4 ms.
    fn idle_two(&self) -> u8;

    /// The LEDs, bits 0 to 4.
    fn leds(&self) -> u8;

    /// The feature report: its Report ID 3, 0, layer, key, code low, code high.
    fn feature(&self) -> [u8; 6];

    /// The input report of Report ID 1, with the ID: 23 bytes, four to a word, the first in the low bits.
    fn bitmap(&self) -> [u32; 6];

    /// The input report of Report ID 2, with the ID: 9 bytes, likewise.
    fn consumer(&self) -> [u32; 6];

    /// The boot input report: 8 bytes, likewise.
    fn boot(&self) -> [u32; 6];
}

impl DeviceReports for DeviceView {
    fn protocol(&self) -> Protocol {
        self.protocol
    }

    fn idle_one(&self) -> u8 {
        self.idle_one
    }

    fn idle_two(&self) -> u8 {
        self.idle_two
    }

    fn leds(&self) -> u8 {
        self.leds
    }

    fn feature(&self) -> [u8; 6] {
        self.feature
    }

    fn bitmap(&self) -> [u32; 6] {
        words_of(&self.bitmap)
    }

    fn consumer(&self) -> [u32; 6] {
        words_of(&self.consumer)
    }

    fn boot(&self) -> [u32; 6] {
        words_of(&self.boot)
    }
}
