// Exported from crates/control_ep/src/answer.rt by bin/export-rust. Edit that file instead.
//! What comes in and goes out beside the packets themselves.

use crate::parts::control_ep::Why;
use arrayvec::ArrayVec;
use crate::parts::reports::{IdleId, Protocol};

/// The answer to a packet of endpoint 0 (USB 2.0 section 8.5.3).
#[derive(Clone, Debug, PartialEq, Eq)]
#[must_use]
pub enum EpAnswer {
    /// The packet is acknowledged.
    Ack,
    /// Not now: nothing has changed, and the host tries again.
    Nak,
    /// A data packet of at most 8 bytes.
    Packet(ArrayVec<u8, 8>),
    /// The transfer is refused, and each further packet of it for the same reason.
    Stall(Why),
}

/// The answer to an IN packet, whose bytes were written into a buffer.
#[derive(Clone, Copy, Debug, PartialEq, Eq)]
#[must_use]
pub enum InAnswer {
    /// Not now: nothing has changed, and the host tries again.
    Nak,
    /// A data packet: so many bytes of the buffer, from its start.
    Packet(u8),
    /// The transfer is refused, and each further packet of it for the same reason.
    Stall(Why),
}

impl InAnswer {
    /// Returns the answer together with its packet, whose bytes stand in this buffer.
    pub fn with(self, buffer: [u8; 8]) -> EpAnswer {
        match self {
            InAnswer::Nak => EpAnswer::Nak,
            InAnswer::Packet(length) => {
                let mut packet = ArrayVec::from(buffer);
                packet.truncate(usize::from(length));
                EpAnswer::Packet(packet)
            }
            InAnswer::Stall(why) => EpAnswer::Stall(why),
        }
    }
}

/// The answer to an OUT packet, which has no packet itself.
#[derive(Clone, Copy, Debug, PartialEq, Eq)]
#[must_use]
pub enum OutAnswer {
    /// The packet is acknowledged.
    Ack,
    /// Not now: nothing has changed, and the host tries again.
    Nak,
    /// The transfer is refused, and each further packet of it for the same reason.
    Stall(Why),
}

impl OutAnswer {
    /// Returns the answer as one to any packet.
    pub fn answer(self) -> EpAnswer {
        match self {
            OutAnswer::Ack => EpAnswer::Ack,
            OutAnswer::Nak => EpAnswer::Nak,
            OutAnswer::Stall(why) => EpAnswer::Stall(why),
        }
    }
}

/// What an OUT packet comes to, as `OutStep` says it, in fewer bytes.
#[derive(Clone, Copy, Debug)]
#[must_use]
pub enum Received {
    /// The packet is answered.
    Answered(OutAnswer),
    /// An output report: the packet is acknowledged, and these are the LEDs.
    Leds(u8),
    /// A feature report without its Report ID; the packet is answered by the verdict on it.
    Offer([u8; 5]),
}

impl Received {
    /// Returns the step.
    pub(crate) fn step(self) -> OutStep {
        match self {
            Received::Answered(answer) => OutStep::Answered(answer.answer()),
            Received::Leds(leds) => OutStep::Leds(leds),
            Received::Offer(bytes) => OutStep::Offer(bytes),
        }
    }
}

/// What an OUT packet comes to.
#[derive(Clone, Debug, PartialEq, Eq)]
#[must_use]
pub enum OutStep {
    /// The packet is answered.
    Answered(EpAnswer),
    /// An output report: the packet is acknowledged, and these are the LEDs, usages 01h to 05h of
    /// page 08h in bits 0 to 4.
    Leds(u8),
    /// A feature report of six bytes without its Report ID: operation, layer, key, code low, code high.
    /// Nothing has changed; the packet's answer is that of `ControlEp::verdict`.
    Offer([u8; 5]),
}

/// What becomes of a feature report that was offered.
#[derive(Clone, Copy, Debug, PartialEq, Eq)]
pub enum Verdict {
    /// It is done already: acknowledged, and the status packet is due.
    Done,
    /// Its command works, until `ControlEp::settle` or `ControlEp::fail`: acknowledged, and the status
    /// packet is `Nak` until then.
    Working,
    /// Another command works: `Nak`, and the report can be sent again.
    Busy,
    /// It is refused: `Stall`.
    Refused(Why),
}

/// What the status packet of a transfer brings about.
#[derive(Clone, Copy, Debug, PartialEq, Eq)]
pub enum Effect {
    /// No change.
    Nothing,
    /// An idle value changes, in units of 4 ms, 0 for no repeats (HID 1.11 section 7.2.4).
    Idle(IdleId, u8),
    /// The protocol is chosen (HID 1.11 section 7.2.6).
    SetProtocol(Protocol),
}

/// What a SETUP packet is answered from: the device at that moment.
#[derive(Clone, Copy, Debug, PartialEq, Eq)]
pub struct DeviceView {
    /// Which reports exist, and the answer of GET_PROTOCOL.
    pub protocol: Protocol,
    /// The idle value of Report ID 1, in units of 4 ms.
    pub idle_one: u8,
    /// The idle value of Report ID 2, in units of 4 ms.
    pub idle_two: u8,
    /// The LEDs, bits 0 to 4.
    pub leds: u8,
    /// The feature report: its Report ID 3, 0, layer, key, code low, code high.
    pub feature: [u8; 6],
    /// The input report of Report ID 1, with the ID.
    pub bitmap: [u8; 23],
    /// The input report of Report ID 2, with the ID.
    pub consumer: [u8; 9],
    /// The boot input report.
    pub boot: [u8; 8],
}
