// Exported from crates/usb_device/src/answer.rt by bin/export-rust. Edit that file instead.
//! What goes out.

use arrayvec::ArrayVec;

/// The answer to a packet of endpoint 0.
#[derive(Clone, Debug, PartialEq, Eq)]
#[must_use]
pub enum EpAnswer {
    Ack,
    Nak,
    Packet(ArrayVec<u8, 8>),
    Stall,
}

/// The bytes of a report.
pub type Report = ArrayVec<u8, 23>;

/// What an IN token of endpoint 1 is answered.
#[derive(Clone, Debug, PartialEq, Eq)]
#[must_use]
pub enum PollAnswer {
    Data(Report),
    Nak,
    Stall,
    Nothing,
}

/// What endpoint 1 is.
#[derive(Clone, Copy, Debug, PartialEq, Eq)]
pub enum Endpoint1 {
    Off,
    Ready,
    Halted,
}

/// What the controller has to do beside its answers.
#[derive(Clone, Copy, Debug, PartialEq, Eq)]
pub enum Change {
    /// The device has this address from the moment that the host acknowledges the packet.
    Address(u8),
    /// Endpoint 1 is this, with data toggle DATA0.
    Endpoint(Endpoint1),
    /// Remote wakeup is enabled, or is not: nothing for the controller.
    Wakeup(bool),
}
