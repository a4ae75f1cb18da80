// SPDX-License-Identifier: MIT OR Apache-2.0

//! How the keyboard on its flash starts, and what a loop asks of it.

use crate::{Endpoints, EpAnswer, Forgetting, HoldsKeyboard, UsbKeyboardOf};
use wuzhikar::calls::PlaceCalls;
use wuzhikar::parts::keyboard::Room;
use wuzhikar::usb::FEATURE_REPORT_LEN;
use wuzhikar::{Defaults, Keyboard, KeyboardOf, Layout, NorFlash, PageCount, Scan, UnstartedKeyboardOf, Why, Work};

/// SET_REPORT of the feature report that carries a command.
const SET_REPORT: [u8; 8] = [0x21, 0x09, 3, 3, 0, 0, FEATURE_REPORT_LEN as u8, 0];

impl<D: Defaults, F: NorFlash> UsbKeyboardOf<D, KeyboardOf<D>, F> {
    /// Starts a keyboard on a flash, whose keymap it reads, for a stack that keeps endpoint 0 to itself.
    ///
    /// # Errors
    ///
    /// `PageCount` if the flash has not 2 to 8 pages. It is neither read nor written then, and dropped.
    ///
    /// ```
    /// use wuzhikar::SimFlash;
    /// use wuzhikar_device::UsbKeyboard;
    ///
    /// let mut keyboard = UsbKeyboard::start(SimFlash::blank(2)?)?;
    /// // SET_REPORT of the feature report: operation 1 writes code 0005h, the letter b, on layer 0, key 0.
    /// keyboard.write([0x21, 0x09, 3, 3, 0, 0, 6, 0], &[3, 1, 0, 0, 0x05, 0x00])?;
    /// // GET_PROTOCOL: the report protocol.
    /// assert_eq!(keyboard.read([0xa1, 0x03, 0, 0, 0, 0, 1, 0])?[..], [1]);
    /// # Ok::<(), Box<dyn core::error::Error>>(())
    /// ```
    pub fn start(flash: F) -> Result<UsbKeyboardOf<D, KeyboardOf<D>, F>, PageCount> {
        PageCount::check(&flash)?;
        match Room::take(()) {
            Ok(room) => Ok(UsbKeyboardOf::start_in(room, flash)),
            Err(never) => match never {},
        }
    }
}

/// A keyboard, or one that is lent.
pub trait HasKeyboard: HoldsKeyboard<<Self as HasKeyboard>::Defaults> {
    /// Its default codes.
    type Defaults: Defaults;
}

impl<D: Defaults> HasKeyboard for KeyboardOf<D> {
    type Defaults = D;
}

impl<D: Defaults> HasKeyboard for &mut KeyboardOf<D> {
    type Defaults = D;
}

/// A keyboard and the flash that it started on, as the [`Endpoints`] behind the layer: behind SET_PROTOCOL no key stays
/// down.
///
/// `K` is the keyboard itself, or a `&mut` of one where it lies elsewhere, as in a `static` (`start_in`). Its calls of the
/// bus are exported from the proved source.
pub type Keys<F, K = Keyboard> = Forgetting<UsbKeyboardOf<<K as HasKeyboard>::Defaults, K, F>>;

impl<F: NorFlash> Keys<F> {
    /// Starts a keyboard on a flash, whose keymap it reads.
    ///
    /// # Errors
    ///
    /// `PageCount` if the flash has not 2 to 8 pages. It is neither read nor written then, and dropped.
    pub fn start(flash: F) -> Result<Keys<F>, PageCount> {
        Ok(Forgetting::new(UsbKeyboardOf::start(flash)?))
    }
}

impl<F: NorFlash, L: Layout> Keys<F, KeyboardOf<L>> {
    /// Starts a keyboard as `start` does, with the default codes of a layout.
    ///
    /// # Errors
    ///
    /// `PageCount`, as there.
    pub fn start_with(flash: F, _layout: L) -> Result<Keys<F, KeyboardOf<L>>, PageCount> {
        Ok(Forgetting::new(UsbKeyboardOf::start(flash)?))
    }
}

impl<'m, F: NorFlash, D: Defaults> Keys<F, &'m mut KeyboardOf<D>> {
    /// Starts a keyboard as `start` does, in memory that is lent, as that of a `static`: nothing large is moved.
    ///
    /// # Errors
    ///
    /// `PageCount`, as there.
    pub fn start_in(memory: &'m mut UnstartedKeyboardOf<D>, flash: F) -> Result<Keys<F, &'m mut KeyboardOf<D>>, PageCount> {
        PageCount::check(&flash)?;
        Ok(Forgetting::new(UsbKeyboardOf::start_on(memory.place(), flash)))
    }
}

impl<F: NorFlash, D: Defaults, K: HoldsKeyboard<D>> Forgetting<UsbKeyboardOf<D, K, F>> {
    /// Returns the keyboard, to look at it: its keymap, its LEDs, its protocol.
    pub fn keyboard(&self) -> &KeyboardOf<D> {
        self.behind.keyboard()
    }

    /// Returns the flash, to look at it.
    pub fn flash(&self) -> &F {
        self.behind.flash()
    }

    /// Lends the flash, for what the trait `NorFlash` does not have.
    ///
    /// **Needs** that its bytes stay as they are, and that no other flash takes its place; else call `restart` afterwards.
    /// Nothing checks it: the keyboard's next operations may land in slots that are in use.
    pub fn flash_mut(&mut self) -> &mut F {
        &mut self.behind.flash
    }

    /// Drops the keyboard, and returns the flash as it is.
    pub fn into_flash(self) -> F {
        self.behind.into_flash()
    }

    /// Takes a scan of the matrix, one each millisecond.
    pub fn scan(&mut self, scan: Scan) {
        crate::ScansMatrix::scan(self, scan.rows);
    }

    /// Makes the next flash operation of a command, one at most.
    pub fn work(&mut self) -> Work {
        self.behind.step()
    }

    /// Returns whether a command may work; if not, `work` makes no flash operation. It is true from an OUT packet that was
    /// acknowledged until `work` answers other than `Working`.
    pub fn may_work(&self) -> bool {
        self.behind.may_work()
    }

    /// Returns the LEDs: Num Lock, Caps Lock, Scroll Lock, Compose, Kana in bits 0 to 4 (HUT page 08h).
    pub fn leds(&self) -> u8 {
        self.keyboard().leds()
    }

    /// Returns why the keyboard stalled the transfer under way, if it did.
    pub fn why(&self) -> Option<Why> {
        self.behind.why()
    }

    /// Starts over on this flash as it is, as after a power loss.
    pub fn restart(&mut self) {
        self.bus_reset();
        self.behind.restart();
    }

    /// Takes a command of the firmware's own, while no transfer of the host is under way.
    pub(crate) fn command(&mut self, report: [u8; FEATURE_REPORT_LEN]) -> EpAnswer {
        if report[1] == 0 {
            // A selection would change what the host has selected.
            return EpAnswer::Stall;
        }
        self.setup(SET_REPORT);
        self.out(&report)
    }
}
