// Exported from crates/control_ep/src/lib.rt by bin/export-rust. Edit that file instead.
//! The control endpoint: SETUP, OUT and IN packets of endpoint 0 and what each is answered.
//!
//! `ControlEp` holds the stage of the transfer under way (USB 2.0 section 8.5.3). It serves
//! GET_DESCRIPTOR and the class requests of HID 1.11 section 7.2, and answers every other request by a
//! STALL. What it can't decide itself it hands out: the LED bits of an output report, the change that a
//! status packet brings, and the command of a feature report, for which its caller gives a verdict.
//!
//! The guarantee is that each packet is answered as the stage of its transfer says, which is looked
//! up in the calls since the SETUP packet. `keyboard` calls it, and is asked what the device is at
//! that moment (`DeviceReports`).
//!
//! **In a controller's firmware.** `setup` is called at each SETUP packet, `out` and `in_packet` at the
//! OUT and IN tokens of endpoint 0; the answer goes onto the bus at once, and an effect is given with
//! its packet. A controller that is handed IN packets before they are asked for calls `in_packet` when
//! one is taken, and hands the next one over then. After a NAK the endpoint has to be armed again when
//! what it waits for has come: after `settle` and `fail` for a command's status stage. A request that is
//! served elsewhere (SET_ADDRESS, SET_CONFIGURATION, GET_STATUS, CLEAR_FEATURE) ends the transfer of this
//! endpoint too: its SETUP packet is handed to `setup`, and what the endpoint would answer is left
//! unused. At a bus reset call `reset`.

mod answer;
mod data;
mod device;
mod endpoint;
mod report;
mod request;
mod why;
mod words;

pub use answer::{DeviceView, Effect, EpAnswer, InAnswer, OutAnswer, OutStep, Received, Verdict};
pub use device::DeviceReports;
pub use endpoint::ControlEp;
pub use why::Why;
