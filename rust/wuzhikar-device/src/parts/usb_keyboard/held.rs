// Exported from crates/usb_keyboard/src/held.rt by bin/export-rust. Edit that file instead.
//! A keyboard that a device has, or that it is lent.

use wuzhikar::parts::keyboard::{EpAnswer, KeyboardOf, NorFlash, Report, Scan, Work};
use wuzhikar::parts::layers::Defaults;
pub(crate) use core::marker::PhantomData;

/// A keyboard, or a `&mut` of one that lies elsewhere, as in a `static`. Each call is the keyboard's own.
pub trait HoldsKeyboard<D: Defaults> {
    /// The keyboard, to be looked at.
    fn keyboard(&self) -> &KeyboardOf<D>;

    /// Starts over on this flash.
    fn restart<F: NorFlash>(&mut self, flash: &F);

    /// A scan of the matrix.
    fn scan(&mut self, scan: Scan);

    /// A SETUP packet of endpoint 0.
    fn setup(&mut self, packet: [u8; 8]);

    /// An OUT packet of endpoint 0.
    fn out(&mut self, packet: &[u8]) -> EpAnswer;

    /// An IN token of endpoint 0.
    fn in_packet(&mut self) -> EpAnswer;

    /// A poll of endpoint 1.
    fn poll(&mut self) -> Option<Report>;

    /// A step of the flash work, on the flash that it started on.
    fn work<F: NorFlash>(&mut self, flash: &mut F) -> Work;

    /// A bus reset.
    fn bus_reset(&mut self);
}

impl<D: Defaults> HoldsKeyboard<D> for KeyboardOf<D> {
    fn keyboard(&self) -> &KeyboardOf<D> {
        self
    }

    fn restart<F: NorFlash>(&mut self, flash: &F) {
        self.restart(flash);
    }

    fn scan(&mut self, scan: Scan) {
        self.scan(scan);
    }

    fn setup(&mut self, packet: [u8; 8]) {
        self.setup(packet);
    }

    fn out(&mut self, packet: &[u8]) -> EpAnswer {
        self.out(packet)
    }

    fn in_packet(&mut self) -> EpAnswer {
        self.in_packet()
    }

    fn poll(&mut self) -> Option<Report> {
        self.poll()
    }

    fn work<F: NorFlash>(&mut self, flash: &mut F) -> Work {
        self.work(flash)
    }

    fn bus_reset(&mut self) {
        self.bus_reset();
    }
}

impl<D: Defaults, K: HoldsKeyboard<D>> HoldsKeyboard<D> for &mut K {
    fn keyboard(&self) -> &KeyboardOf<D> {
        (**self).keyboard()
    }

    fn restart<F: NorFlash>(&mut self, flash: &F) {
        (**self).restart(flash);
    }

    fn scan(&mut self, scan: Scan) {
        (**self).scan(scan);
    }

    fn setup(&mut self, packet: [u8; 8]) {
        (**self).setup(packet);
    }

    fn out(&mut self, packet: &[u8]) -> EpAnswer {
        (**self).out(packet)
    }

    fn in_packet(&mut self) -> EpAnswer {
        (**self).in_packet()
    }

    fn poll(&mut self) -> Option<Report> {
        (**self).poll()
    }

    fn work<F: NorFlash>(&mut self, flash: &mut F) -> Work {
        (**self).work(flash)
    }

    fn bus_reset(&mut self) {
        (**self).bus_reset();
    }
}
