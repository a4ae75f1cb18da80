// SPDX-License-Identifier: MIT OR Apache-2.0

//! A USB device around the keyboard core [`wuzhikar`]: what a firmware needs between the core and a USB controller.
//!
//! - [`UsbDevice`] is the device for controllers with packet buffers, as nearly all have. The driver implements
//!   [`Controller`] for endpoint 0 and [`Buffers`] for endpoint 1.
//! - [`DeviceLayer`] serves the standard requests of USB 2.0 chapter 9, with descriptors borrowed from the maker.
//! - [`Keys`] is the keyboard with its flash; the layer calls it as [`Endpoints`]. [`Product`] makes descriptors from an
//!   [`Identity`].
//! - [`UsbKeyboardOf::write`] and [`UsbKeyboardOf::read`] make whole control transfers, for a stack that keeps endpoint 0 to
//!   itself; [`write()`] and [`read`] make them over any [`Endpoints`].
//! - [`Device`] is the same device for tests, and for controllers that ask at each token. [`Device::control`] makes a
//!   whole control transfer from the host's side.
//!
//! **What is proved.** The device layer, both buffers and what `Keys` does on the bus are exported from a proved source
//! (`crates/usb_device`, `crates/usb_keyboard`), as the keyboard is. For a driver that keeps the clauses of [`Controller`] and
//! [`Buffers`]: if the host saw a control write end, the device behind the layer has confirmed it, so a command is stored. What
//! the host got on endpoint 0, the device gave, packet by packet. The host takes as new the reports since the last bus reset, whole
//! and in order: all, or all but the newest. Each comes once while the data toggles agree, else at least once; SET_PROTOCOL may
//! drop one. Written by hand, and tested, are how `Keys` starts, `Identity`, `Product`, `Device`, and the calls of `UsbDevice` that
//! name the keyboard. `no_std`, no allocator, no unsafe code.
//!
//! ```
//! use wuzhikar::{Scan, SimFlash};
//! use wuzhikar_device::{Change, Device, Endpoint1, PollAnswer, Product};
//!
//! let mut device = Device::start(SimFlash::blank(2)?, &Product::TEST)?;
//! // SET_CONFIGURATION 1, as a host asks it.
//! let done = device.control([0x00, 0x09, 1, 0, 0, 0, 0, 0], &mut [])?;
//! assert_eq!(done.change, Some(Change::Endpoint(Endpoint1::Ready)));
//! // Key 0 is closed for five milliseconds.
//! for _ in 0..5 {
//!     device.scan(Scan { rows: [1, 0, 0, 0, 0, 0] });
//! }
//! // The report of 23 bytes comes in a packet of 16 and one of 7.
//! let PollAnswer::Data(packet) = device.poll() else { panic!("a packet") };
//! assert_eq!((packet.len(), &packet[..3]), (16, &[1, 0, 1][..]));
//! # Ok::<(), Box<dyn core::error::Error>>(())
//! ```
//!
//! # Another device behind the layer
//!
//! The layer serves whatever implements [`Endpoints`], with the [`Descriptors`] of its maker:
//!
//! ```
//! use wuzhikar::usb::{CONFIGURATION_DESCRIPTOR, DEVICE_DESCRIPTOR, HID_DESCRIPTOR};
//! use wuzhikar_device::{Descriptors, DeviceLayer, Endpoints, EpAnswer, Report, utf16};
//!
//! /// A device that takes no request and has no report.
//! struct Silent;
//!
//! impl Endpoints for Silent {
//!     fn setup(&mut self, _packet: [u8; 8]) {}
//!
//!     fn out(&mut self, _packet: &[u8]) -> EpAnswer {
//!         EpAnswer::Stall
//!     }
//!
//!     fn in_packet(&mut self) -> EpAnswer {
//!         EpAnswer::Stall
//!     }
//!
//!     fn poll(&mut self) -> Option<Report> {
//!         None
//!     }
//!
//!     fn bus_reset(&mut self) {}
//! }
//!
//! let mut layer = DeviceLayer::new(Descriptors {
//!     device: &DEVICE_DESCRIPTOR,
//!     configuration: &CONFIGURATION_DESCRIPTOR,
//!     hid: &HID_DESCRIPTOR,
//!     manufacturer: utf16!("Example"),
//!     product: &[],
//!     serial_number: &[],
//! });
//! // GET_DESCRIPTOR of string 1: its length, its type, and three characters in the first packet.
//! layer.setup([0x80, 0x06, 1, 3, 0x09, 0x04, 255, 0], &mut Silent);
//! let (EpAnswer::Packet(packet), None) = layer.in_packet(&mut Silent) else { panic!("a packet") };
//! assert_eq!(packet[..], [16, 3, b'E', 0, b'x', 0, b'a', 0]);
//! // GET_REPORT is of the device behind.
//! layer.setup([0xa1, 0x01, 1, 1, 0, 0, 23, 0], &mut Silent);
//! assert_eq!(layer.in_packet(&mut Silent), (EpAnswer::Stall, None));
//! ```
#![cfg_attr(not(any(test, feature = "testing")), no_std)]
#![forbid(unsafe_code)]

mod control;
mod device;
mod face;
mod identity;
mod keys;
#[doc(hidden)]
pub mod parts;
#[cfg(any(test, feature = "testing"))]
pub mod testing;
#[cfg(test)]
mod tests;

pub use control::{Done, NotDone};
pub use device::Device;
pub use identity::{Identity, Interval, Power, Product, unit_count, units};
pub use keys::{HasKeyboard, Keys};
pub use parts::usb_device::{
    Buffers, Change, ControlBuffers, Controller, Descriptors, DeviceLayer, Endpoint1, Endpoints, EpAnswer, Forgetting, Guarded,
    Input, Output, PacketSize, PollAnswer, ReadBytes, Report, ReportBuffers, ScansMatrix, TransferError, UsbDevice, Waiting,
    Works, read, write,
};
pub use parts::usb_keyboard::{HoldsKeyboard, UsbKeyboard, UsbKeyboardOf};
