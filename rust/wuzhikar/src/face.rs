//! Calls that take a type, or check, where the exported ones ask something of their caller, and a keyboard that owns its
//! flash. Written by hand: tested, not proved.

use crate::layout::Layout;
use crate::parts::control_ep::{EpAnswer, InAnswer};
use crate::parts::debounce::{Debouncer, Scan};
use crate::parts::keyboard::{Keyboard, KeyboardOf, Report, Work};
use crate::parts::layers::{Defaults, KeyNo, Standard};
use wuzhikar_log::{NorFlash, PageCount};

impl<D: Defaults> KeyboardOf<D> {
    /// Starts a keyboard on a flash, which is read and not written: no key is down, nothing was sent, entry (0, 0) is
    /// selected, and there is no transfer.
    ///
    /// # Errors
    ///
    /// `PageCount` if the flash has not 2 to 8 pages. It is not read then.
    pub fn on<F: NorFlash>(flash: &F) -> Result<KeyboardOf<D>, PageCount> {
        PageCount::check(flash)?;
        match KeyboardOf::start((), flash) {
            Ok(keyboard) => Ok(keyboard),
            Err(never) => match never {},
        }
    }
}

impl Scan {
    /// Returns whether the switch of this key is closed in this scan.
    pub fn has_key(&self, key: KeyNo) -> bool {
        self.has(key.number())
    }

    /// Returns this scan with the switch of this key closed (`on`) or open.
    pub fn with_key(self, key: KeyNo, on: bool) -> Scan {
        self.with(key.number(), on)
    }
}

impl Debouncer {
    /// Returns whether a key is down, after debouncing.
    pub fn is_key_down(&self, key: KeyNo) -> bool {
        self.is_down(key.number())
    }
}

/// A keyboard and its flash in one, with the standard default codes or those of a [`Layout`].
///
/// No call has a condition on its caller, but that [`restart`](FlashKeyboard::restart) leaves the number of pages as it is.
///
/// ```
/// # fn main() -> Result<(), Box<dyn core::error::Error>> {
/// # #[cfg(feature = "sim")]
/// # {
/// use wuzhikar::{EpAnswer, FlashKeyboard, Scan, SimFlash, Work};
///
/// let mut keyboard = FlashKeyboard::start(SimFlash::blank(2)?)?;
/// // The host sets entry (0, 0) to the letter b, by feature report 3.
/// keyboard.setup([0x21, 0x09, 0x03, 0x03, 0, 0, 6, 0]);
/// assert_eq!(keyboard.out(&[3, 1, 0, 0, 5, 0]), EpAnswer::Ack);
/// // The status stage waits until the assignment is in the flash.
/// assert_eq!(keyboard.in_packet(), EpAnswer::Nak);
/// while keyboard.work() != Work::Idle {}
/// assert!(matches!(keyboard.in_packet(), EpAnswer::Packet(packet) if packet.is_empty()));
/// // After a power loss it is there.
/// let mut keyboard = FlashKeyboard::start(keyboard.into_flash())?;
/// for _ in 0..5 {
///     keyboard.scan(Scan { rows: [1, 0, 0, 0, 0, 0] });
/// }
/// let report = keyboard.poll().expect("a key went down");
/// assert_eq!(report[..3], [1, 0, 2]);
/// # }
/// # Ok(())
/// # }
/// ```
#[derive(Debug)]
pub struct FlashKeyboard<F, D: Defaults = Standard> {
    keyboard: KeyboardOf<D>,
    flash: F,
}

impl<F: NorFlash> FlashKeyboard<F> {
    /// Starts a keyboard on a flash, which it owns from then on ([`Keyboard::on`]).
    ///
    /// # Errors
    ///
    /// `PageCount` if the flash has not 2 to 8 pages. It is neither read nor written then, and dropped.
    pub fn start(flash: F) -> Result<FlashKeyboard<F>, PageCount> {
        Ok(FlashKeyboard { keyboard: Keyboard::on(&flash)?, flash })
    }
}

impl<F: NorFlash, L: Layout> FlashKeyboard<F, L> {
    /// Starts a keyboard with the default codes of a layout on a flash, which it owns from then on.
    ///
    /// # Errors
    ///
    /// `PageCount` if the flash has not 2 to 8 pages. It is neither read nor written then, and dropped.
    pub fn start_with(flash: F, _layout: L) -> Result<FlashKeyboard<F, L>, PageCount> {
        Ok(FlashKeyboard { keyboard: KeyboardOf::on(&flash)?, flash })
    }
}

impl<F: NorFlash, D: Defaults> FlashKeyboard<F, D> {
    /// Returns whether nothing was stored on the flash since it was erased ([`KeyboardOf::is_first_start`]).
    pub fn is_first_start(&self) -> bool {
        self.keyboard.is_first_start()
    }

    /// Takes a scan of the matrix, one each millisecond ([`Keyboard::scan`]).
    pub fn scan(&mut self, scan: Scan) {
        self.keyboard.scan(scan);
    }

    /// Takes a SETUP packet of endpoint 0, which is always acknowledged ([`Keyboard::setup`]; USB 2.0 section 8.5.3).
    pub fn setup(&mut self, packet: [u8; 8]) {
        self.keyboard.setup(packet);
    }

    /// Takes a SETUP packet as `setup` does, where it lies ([`Keyboard::setup_at`]).
    pub fn setup_at(&mut self, packet: &[u8; 8]) {
        self.keyboard.setup_at(packet);
    }

    /// Takes an OUT packet of endpoint 0, of 0 to 8 bytes, and answers ACK, NAK or STALL ([`Keyboard::out`]).
    pub fn out(&mut self, packet: &[u8]) -> EpAnswer {
        self.keyboard.out(packet)
    }

    /// Answers an IN token of endpoint 0 with a packet of 0 to 8 bytes, NAK or STALL ([`Keyboard::in_packet`]).
    pub fn in_packet(&mut self) -> EpAnswer {
        self.keyboard.in_packet()
    }

    /// Answers an IN token of endpoint 0 as `in_packet` does, and writes the packet into `packet` ([`Keyboard::in_packet_into`]).
    ///
    /// ```
    /// # fn main() -> Result<(), Box<dyn core::error::Error>> {
    /// # #[cfg(feature = "sim")]
    /// # {
    /// use wuzhikar::{FlashKeyboard, InAnswer, SimFlash};
    ///
    /// let mut keyboard = FlashKeyboard::start(SimFlash::blank(2)?)?;
    /// // GET_DESCRIPTOR of the device descriptor.
    /// keyboard.setup([0x80, 0x06, 0, 1, 0, 0, 18, 0]);
    /// let mut packet = [0; 8];
    /// assert_eq!(keyboard.in_packet_into(&mut packet), InAnswer::Packet(8));
    /// assert_eq!(packet[..2], [18, 1]);
    /// # }
    /// # Ok(())
    /// # }
    /// ```
    pub fn in_packet_into(&mut self, packet: &mut [u8; 8]) -> InAnswer {
        self.keyboard.in_packet_into(packet)
    }

    /// Answers an IN token of endpoint 1 with a report of 8, 9 or 23 bytes; `None` is NAK ([`Keyboard::poll`]).
    pub fn poll(&mut self) -> Option<Report> {
        self.keyboard.poll()
    }

    /// Answers an IN token of endpoint 1 as `poll` does, writes the report into `report`, and returns how many bytes it has
    /// ([`Keyboard::poll_into`]). With `setup_at` and `in_packet_into` no code that copies memory is linked for a keyboard.
    ///
    /// ```
    /// # fn main() -> Result<(), Box<dyn core::error::Error>> {
    /// # #[cfg(feature = "sim")]
    /// # {
    /// use wuzhikar::{FlashKeyboard, Scan, SimFlash};
    ///
    /// let mut keyboard = FlashKeyboard::start(SimFlash::blank(2)?)?;
    /// for _ in 0..5 {
    ///     keyboard.scan(Scan { rows: [1, 0, 0, 0, 0, 0] });
    /// }
    /// let mut report = [0; 23];
    /// assert_eq!(keyboard.poll_into(&mut report), Some(23));
    /// assert_eq!(report[..3], [1, 0, 1]);
    /// # }
    /// # Ok(())
    /// # }
    /// ```
    pub fn poll_into(&mut self, report: &mut [u8; 23]) -> Option<u8> {
        self.keyboard.poll_into(report)
    }

    /// Makes the next flash operation of a command, one at most ([`Keyboard::work`]).
    pub fn work(&mut self) -> Work {
        self.keyboard.work(&mut self.flash)
    }

    /// Takes a bus reset ([`Keyboard::bus_reset`]; USB 2.0 section 7.1.7.5).
    pub fn bus_reset(&mut self) {
        self.keyboard.bus_reset();
    }

    /// Returns the keyboard, to look at it.
    pub fn keyboard(&self) -> &KeyboardOf<D> {
        &self.keyboard
    }

    /// Returns the flash, to look at it.
    pub fn flash(&self) -> &F {
        &self.flash
    }

    /// Drops the keyboard, and returns the flash as it is.
    pub fn into_flash(self) -> F {
        self.flash
    }

    /// Lends the flash to `change`, and restarts the keyboard on it, as after a power loss ([`Keyboard::restart`]).
    /// `change` must leave the number of pages.
    pub fn restart<R>(&mut self, change: impl FnOnce(&mut F) -> R) -> R {
        let result = change(&mut self.flash);
        self.keyboard.restart(&self.flash);
        result
    }
}

#[cfg(test)]
mod tests {
    use super::*;

    #[test]
    fn keys_of_a_scan() {
        let (Ok(first), Ok(last)) = (KeyNo::read(0), KeyNo::read(95)) else { panic!("keys 0 and 95") };
        let scan = Scan::NONE.with_key(last, true).with_key(first, false);
        assert_eq!(scan, Scan { rows: [0, 0, 0, 0, 0, 1 << 15] });
        assert!(scan.has_key(last) && !scan.has_key(first));
        let mut debouncer = Debouncer::new();
        for _ in 0..5 {
            debouncer.feed(scan);
        }
        assert!(debouncer.is_key_down(last) && !debouncer.is_key_down(first));
    }
}
