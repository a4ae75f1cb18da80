// Exported from crates/usb_device/src/endpoints.rt by bin/export-rust. Edit that file instead.
//! What stands behind the USB device layer.

use crate::parts::usb_device::{EpAnswer, Report};

/// A device that serves what the USB device layer leaves to it.
pub trait Endpoints {
    /// A SETUP packet of endpoint 0, which is always acknowledged.
    fn setup(&mut self, packet: [u8; 8]);

    /// An OUT packet of endpoint 0.
    fn out(&mut self, packet: &[u8]) -> EpAnswer;

    /// An IN token of endpoint 0.
    fn in_packet(&mut self) -> EpAnswer;

    /// The report that is due for endpoint 1, which then counts as sent.
    fn poll(&mut self) -> Option<Report>;

    /// A bus reset.
    fn bus_reset(&mut self);
}
