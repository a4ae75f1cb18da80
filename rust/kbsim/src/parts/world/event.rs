// Exported from crates/world/src/event.rt by bin/export-rust. Edit that file instead.
//! What happens to keyboard, host and flash, and what comes of it.

use arrayvec::ArrayVec;
use wuzhikar::parts::control_ep::Why;
use wuzhikar::parts::debounce::Scan;
use wuzhikar_log::parts::flash_model::Mask;
use crate::parts::host::Reading;
use wuzhikar::parts::keymap_store::Work;
use wuzhikar::parts::layers::{Code, KeyNo, LayerNo};
use wuzhikar::parts::reports::Report;

/// One step of the simulation. Each is taken whole before the next one.
#[derive(Clone, Debug, PartialEq, Eq)]
pub enum Event {
    /// One scan of the matrix. One comes each millisecond.
    Scan(Scan),
    /// A SETUP packet on endpoint 0 (USB 2.0 section 8.5.3).
    Setup([u8; 8]),
    /// An OUT data packet of at most 8 bytes on endpoint 0.
    OutPacket(ArrayVec<u8, 8>),
    /// An IN token on endpoint 0.
    InPacket,
    /// A poll: an IN token on endpoint 1.
    Poll,
    /// One step of the flash work: at most one flash operation.
    Work,
    /// A step of the flash work whose operation is torn by the mask and answers a fault. Where no
    /// command works it is a `Work`.
    WorkFault(Mask),
    /// The power is cut and comes back: all RAM is lost, and the keyboard starts on its flash.
    Cut,
    /// The power is cut inside the operation of a step of the flash work, which is torn by the mask.
    /// Where no command works it is a `Cut`.
    CutInWork(Mask),
    /// A bus reset (USB 2.0 section 7.1.7.5).
    BusReset,
    /// A look at one entry of the keymap in RAM.
    Entry(LayerNo, KeyNo),
    /// A look at one slot of the flash. A place outside it is answered by `NoSlot`.
    SlotAt { page: u8, slot: u16 },
    /// A look at the LEDs.
    Leds,
}

/// What comes of an event.
#[derive(Clone, Debug, PartialEq, Eq)]
pub enum Answer {
    /// The event was taken, and nothing comes of it at once.
    Done,
    /// The packet was taken.
    Ack,
    /// Nothing to send now, or the keyboard is busy: the host may try again.
    Nak,
    /// A data packet; without bytes, the end of a read whose packets were all full, or the status stage
    /// of a transfer that succeeded.
    Packet(ArrayVec<u8, 8>),
    /// The request is refused, for this reason.
    Stall(Why),
    /// A report, and what the host reads in it.
    Sent { bytes: Report, reading: Reading },
    /// What a step of the flash work came to.
    Worked(Work),
    /// The keyboard started anew.
    Restarted,
    /// The code of an entry.
    EntryIs(Code),
    /// The eight bytes of a slot.
    SlotIs([u8; 8]),
    /// The flash has no such slot.
    NoSlot,
    /// The LEDs: usages 01h to 05h of page 08h in bits 0 to 4.
    LedsAre(u8),
}

/// What comes of an event, and whether a growth of the host was refused in it.
pub(crate) struct Reported {
    pub(crate) answer: Answer,
    pub(crate) refused: bool,
}
