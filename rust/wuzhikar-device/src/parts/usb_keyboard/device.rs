// Exported from crates/usb_keyboard/src/device.rt by bin/export-rust. Edit that file instead.
//! The keyboard with its flash, as a device behind the USB device layer.

use crate::parts::usb_keyboard::held::{HoldsKeyboard, PhantomData};
use arrayvec::ArrayVec;
use wuzhikar::parts::keyboard::{KeyboardOf, NorFlash, Room, Scan, Why, Work};
use wuzhikar::parts::layers::{Defaults, Standard};
use crate::parts::usb_device::{Endpoints, EpAnswer, Report, ScansMatrix, Works};

/// A keyboard with these defaults, or one that is lent, with the flash that keeps its keymap.
pub struct UsbKeyboardOf<D: Defaults, K: HoldsKeyboard<D>, F: NorFlash> {
    keyboard: K,
    pub(crate) flash: F,
    defaults: PhantomData<D>,
    may_work: bool,
    why: Option<Why>,
}

/// A keyboard with the standard defaults, with its flash.
pub type UsbKeyboard<F> = UsbKeyboardOf<Standard, KeyboardOf<Standard>, F>;

// The keyboard runs on this flash.

/// An answer without the reason of a STALL, which a host does not see.
fn plain(answer: wuzhikar::parts::keyboard::EpAnswer) -> EpAnswer {
    match answer {
        wuzhikar::parts::keyboard::EpAnswer::Ack => EpAnswer::Ack,
        wuzhikar::parts::keyboard::EpAnswer::Nak => EpAnswer::Nak,
        wuzhikar::parts::keyboard::EpAnswer::Packet(packet) => EpAnswer::Packet(packet),
        wuzhikar::parts::keyboard::EpAnswer::Stall(_) => EpAnswer::Stall,
    }
}

/// The reason of a STALL.
fn reason(answer: &wuzhikar::parts::keyboard::EpAnswer) -> Option<Why> {
    match answer {
        wuzhikar::parts::keyboard::EpAnswer::Stall(why) => Some(*why),
        wuzhikar::parts::keyboard::EpAnswer::Ack | wuzhikar::parts::keyboard::EpAnswer::Nak | wuzhikar::parts::keyboard::EpAnswer::Packet(_) => None,
    }
}

/// Whether a packet was acknowledged.
fn is_taken(answer: &wuzhikar::parts::keyboard::EpAnswer) -> bool {
    match answer {
        wuzhikar::parts::keyboard::EpAnswer::Ack => true,
        wuzhikar::parts::keyboard::EpAnswer::Nak | wuzhikar::parts::keyboard::EpAnswer::Packet(_) | wuzhikar::parts::keyboard::EpAnswer::Stall(_) =>
            false,
    }
}

/// The bytes of a report, of which there are at most 23.
pub(crate) fn short(bytes: &[u8]) -> Report {
    let mut report = ArrayVec::new();
    let _full = report.try_extend_from_slice(bytes);
    report
}

impl<D: Defaults, F: NorFlash> UsbKeyboardOf<D, KeyboardOf<D>, F> {
    /// The power comes: the keyboard starts on this flash, whose keymap it reads.
    pub(crate) fn start_in(room: Room, flash: F) -> UsbKeyboardOf<D, KeyboardOf<D>, F> {
        let keyboard = KeyboardOf::start_in(room, &flash);
        UsbKeyboardOf {
            keyboard,
            flash,
            defaults: PhantomData,
            may_work: false,
            why: None,
        }
    }
}

impl<D: Defaults, K: HoldsKeyboard<D>, F: NorFlash> UsbKeyboardOf<D, K, F> {
    /// The power comes: the keyboard, which may be a `&mut` of one, starts over on this flash, whose keymap it reads.
    pub fn start_on(keyboard: K, flash: F) -> UsbKeyboardOf<D, K, F> {
        let mut keyboard = keyboard;
        keyboard.restart(&flash);
        UsbKeyboardOf {
            keyboard,
            flash,
            defaults: PhantomData,
            may_work: false,
            why: None,
        }
    }

    /// The power went and came back: the keyboard starts over on its flash as it is.
    pub fn restart(&mut self) {
        self.keyboard.restart(&self.flash);
        self.may_work = false;
        self.why = None;
    }

    /// A step of the flash work, at most one program or erase, and what it came to.
    pub fn step(&mut self) -> Work {
        let work = self.keyboard.work(&mut self.flash);
        self.may_work = work == Work::Working;
        work
    }

    /// The keyboard, to be looked at: its keymap, its LEDs, its protocol.
    pub fn keyboard(&self) -> &KeyboardOf<D> {
        self.keyboard.keyboard()
    }

    /// The flash, to be looked at.
    pub fn flash(&self) -> &F {
        &self.flash
    }

    /// The power goes: the flash.
    pub fn into_flash(self) -> F {
        self.flash
    }

    /// Whether a command may work: where this is false, a step makes no flash operation. It is true from an OUT packet that
    /// was acknowledged until a step finds no more to do.
    pub fn may_work(&self) -> bool {
        self.may_work
    }

    /// Why endpoint 0 was stalled last in the transfer under way, if it was. No clause says it.
    pub fn why(&self) -> Option<Why> {
        self.why
    }
}

impl<D: Defaults, K: HoldsKeyboard<D>, F: NorFlash> Endpoints
    for UsbKeyboardOf<D, K, F> {
    fn setup(&mut self, packet: [u8; 8]) {
        self.keyboard.setup(packet);
        self.why = None;
    }

    fn out(&mut self, packet: &[u8]) -> EpAnswer {
        let answer = self.keyboard.out(packet);
        self.may_work = self.may_work || is_taken(&answer);
        self.why = reason(&answer);
        plain(answer)
    }

    fn in_packet(&mut self) -> EpAnswer {
        let answer = self.keyboard.in_packet();
        self.why = reason(&answer);
        plain(answer)
    }

    fn poll(&mut self) -> Option<Report> {
        match self.keyboard.poll() {
            Some(report) => Some(short(&report)),
            None => None,
        }
    }

    fn bus_reset(&mut self) {
        self.keyboard.bus_reset();
    }
}

impl<D: Defaults, K: HoldsKeyboard<D>, F: NorFlash> Works for UsbKeyboardOf<D, K, F> {
    fn work(&mut self) {
        let _work = self.step();
    }
}

impl<D: Defaults, K: HoldsKeyboard<D>, F: NorFlash> ScansMatrix
    for UsbKeyboardOf<D, K, F> {
    fn scan(&mut self, rows: [u16; 6]) {
        self.keyboard.scan(Scan { rows });
    }
}

#[allow(unused_imports)]
use wuzhikar::calls::KeyboardCalls as _;
