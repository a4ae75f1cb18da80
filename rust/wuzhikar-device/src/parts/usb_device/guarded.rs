// Exported from crates/usb_device/src/guarded.rt by bin/export-rust. Edit that file instead.
//! A maker's lock and pace of feature commands, as a device before a device.

use crate::parts::usb_device::guard::{Guard, Passage};
use crate::parts::usb_device::{Endpoints, EpAnswer, Report, Works};

/// The longest pace: a host waits 5 seconds for a status stage (section 9.2.6.1).
const MOST_PACE: u16 = 4000;

/// A device that reads a matrix.
pub trait ScansMatrix: Endpoints {
    /// A scan of the matrix, which is nothing to the bus.
    fn scan(&mut self, rows: [u16; 6]);
}

/// A device whose feature commands, operations 1 to 3 of SET_REPORT, a maker locks and slows down.
///
/// While the lock is set a command is stalled before the device behind sees it, and so is the rest of its transfer. Reading
/// goes on, and so does a command that was acknowledged before. With a pace a command is put off by NAK until so many scans
/// have come since the one before, or since the start. Both look at bmRequestType, bRequest, wValue and the operation alone,
/// so a packet that the device behind would stall for its wIndex, length or Report ID is put off too.
///
/// ```rust
/// # fn main() -> Result<(), Box<dyn std::error::Error>> {
/// use wuzhikar::SimFlash;
/// use wuzhikar_device::{Guarded, Keys, TransferError, write};
///
/// let set_key = |keys: &mut Guarded<_>| write(keys, [0x21, 0x09, 3, 3, 0, 0, 6, 0], &[3, 1, 0, 0, 0x05, 0x00], 388);
/// let mut keys = Guarded::new(Keys::start(SimFlash::blank(2).unwrap())?, 0);
/// keys.set_locked(true);
/// assert_eq!(set_key(&mut keys), Err(TransferError::Refused));
/// keys.set_locked(false);
/// assert_eq!(set_key(&mut keys), Ok(()));
/// # Ok(())
/// # }
/// ```
pub struct Guarded<E> {
    pub(crate) guard: Guard,
    pub(crate) behind: E,
}

impl<E: Endpoints> Guarded<E> {
    /// The lock is off. The pace is a number of scans, at most 4,000, and 0 for none.
    pub fn new(behind: E, pace: u16) -> Guarded<E> {
        Guarded {
            guard: Guard::new(pace.min(MOST_PACE)),
            behind,
        }
    }

    /// Sets the lock, or takes it away.
    pub fn set_locked(&mut self, on: bool) {
        self.guard.set_locked(on);
    }
}

impl<E: Endpoints> Endpoints for Guarded<E> {
    fn setup(&mut self, packet: [u8; 8]) {
        self.guard.setup(packet);
        self.behind.setup(packet);
    }

    fn out(&mut self, packet: &[u8]) -> EpAnswer {
        match self.guard.passage(packet) {
            Passage::Refuses => {
                self.guard.refuse();
                EpAnswer::Stall
            }
            Passage::Waits => EpAnswer::Nak,
            Passage::Passes => {
                let answer = self.behind.out(packet);
                self.guard.note(packet, &answer);
                answer
            }
        }
    }

    fn in_packet(&mut self) -> EpAnswer {
        if self.guard.is_refused() {
            EpAnswer::Stall
        } else {
            self.behind.in_packet()
        }
    }

    fn poll(&mut self) -> Option<Report> {
        self.behind.poll()
    }

    fn bus_reset(&mut self) {
        self.guard.reset();
        self.behind.bus_reset();
    }
}

impl<E: Works> Works for Guarded<E> {
    fn work(&mut self) {
        self.behind.work();
    }
}

impl<E: ScansMatrix> ScansMatrix for Guarded<E> {
    fn scan(&mut self, rows: [u16; 6]) {
        self.guard.scan();
        self.behind.scan(rows);
    }
}
