// SPDX-License-Identifier: MIT OR Apache-2.0

//! What a maker ships, and a run of it behind the host.

use super::host::{Act, SET_CONFIGURATION};
use super::line::{ENABLE_WAKEUP, OnWire, Wire, Wired};
use crate::{Buffers, Controller, DeviceLayer, Forgetting, Keys, Product, UsbDevice, UsbKeyboardOf};
use std::cell::RefCell;
use std::panic::{AssertUnwindSafe, catch_unwind};
use wuzhikar::{Defaults, FlashFault, KeyNo, KeyboardOf, LayerNo, NorFlash, SLOT_BYTES};

/// SET_REPORT of the feature report.
pub(super) const SET_FEATURE: [u8; 8] = [0x21, 9, 3, 3, 0, 0, 6, 0];

/// The device of a firmware.
pub type UsbOf<F> =
    UsbDevice<'static, Keys<<F as Firmware>::Flash, KeyboardOf<<F as Firmware>::Layout>>, <F as Firmware>::Driver>;

/// What a maker ships, over registers and cells that are played.
///
/// A test starts it as often as it likes, and leaves registers and cells in memory.
pub trait Firmware: Sized + 'static {
    /// The registers of the USB controller, as they are at the power's coming.
    type Registers: Wire + 'static;
    /// The driver of the USB controller: a handle.
    type Driver: Controller + Buffers + Copy + 'static;
    /// What keeps its bits without power. The driver of the flash reads and writes it.
    type Flash: NorFlash + 'static;
    /// The cells of the flash, which its drivers share: one that a test has cut off, and one that finds what it left.
    type Cells: 'static;
    /// The default codes: a `Layout`, or `Standard`.
    type Layout: Defaults + 'static;

    /// Returns the product whose descriptors the device has.
    fn product() -> &'static Product<'static>;

    /// Returns registers as they are at the power's coming.
    fn registers() -> Self::Registers;

    /// Starts the driver of the USB controller.
    fn driver(wire: &'static Wired<Self::Registers>) -> Self::Driver;

    /// Returns cells that are erased.
    fn cells() -> Self::Cells;

    /// Starts the driver of the flash over cells, as it is started when the power comes. Nothing is written.
    fn flash(cells: &'static Self::Cells) -> Self::Flash;

    /// Makes a round of the main loop for the bus: `serve`, with suspend, resume and remote wakeup.
    fn round(driver: Self::Driver, device: &mut UsbOf<Self>);
}

/// Cells that are a whole flash, as `SimFlash`, shared by those that start on it.
#[derive(Debug)]
pub struct Cells<F: 'static>(pub &'static RefCell<F>);

impl<F: NorFlash> NorFlash for Cells<F> {
    fn pages(&self) -> usize {
        self.0.borrow().pages()
    }

    fn read_slot(&self, page: usize, slot: usize) -> [u8; SLOT_BYTES] {
        self.0.borrow().read_slot(page, slot)
    }

    fn program_slot(&mut self, page: usize, slot: usize, bytes: [u8; SLOT_BYTES]) -> Result<(), FlashFault> {
        self.0.borrow_mut().program_slot(page, slot, bytes)
    }

    fn erase_page(&mut self, page: usize) -> Result<(), FlashFault> {
        self.0.borrow_mut().erase_page(page)
    }
}

/// Registers of a firmware with a host on their wire: a quiet one, or one of this seed.
pub(super) fn wired<F: Firmware>(seed: Option<u64>) -> &'static Wired<F::Registers> {
    let mut wire = OnWire::new(F::registers(), seed.unwrap_or(1), F::product().identity().packet_size.bytes());
    wire.line.quiet = true;
    Box::leak(Box::new(RefCell::new(wire)))
}

/// Does a part of a test. Where it panics, this panics with what it said, the seed and the last tokens.
pub(super) fn told<P: Wire, T>(wire: &Wired<P>, test: impl FnOnce() -> T) -> T {
    catch_unwind(AssertUnwindSafe(test)).unwrap_or_else(|why| {
        let why = why.downcast_ref::<String>().map(String::as_str).or(why.downcast_ref::<&str>().copied());
        panic!("{}\n{}", why.unwrap_or("a panic"), wire.borrow().line)
    })
}

fn keys<F: Firmware>(cells: &'static F::Cells) -> Keys<F::Flash, KeyboardOf<F::Layout>> {
    Forgetting::new(UsbKeyboardOf::start(F::flash(cells)).unwrap())
}

/// The code of an entry that a start on these cells finds.
fn code<F: Firmware>(cells: &'static F::Cells, layer: u8, key: u8) -> u16 {
    let keys = keys::<F>(cells);
    keys.keyboard().keymap().get(LayerNo::read(layer).unwrap(), KeyNo::read(key).unwrap()).bits()
}

/// A firmware that runs, with a host on its wire.
pub(super) struct Run<F: Firmware> {
    pub wire: &'static Wired<F::Registers>,
    pub usb: UsbOf<F>,
    cells: &'static F::Cells,
    driver: F::Driver,
}

impl<F: Firmware> Run<F> {
    /// The power comes, and the host resets the bus.
    pub fn new(wire: &'static Wired<F::Registers>) -> Run<F> {
        let driver = F::driver(wire);
        let cells = Box::leak(Box::new(F::cells()));
        let layer = DeviceLayer::new(F::product().descriptors());
        let usb = UsbDevice::new(layer, keys::<F>(cells), driver, F::product().identity().packet_size);
        wire.borrow_mut().act(Act::Reset);
        let mut run = Run { wire, usb, cells, driver };
        run.serve();
        run
    }

    /// What the host saw the end of is stored; then a round.
    pub fn serve(&mut self) {
        let confirmed = std::mem::take(&mut self.wire.borrow_mut().line.confirmed);
        if let Some(&[_, operation, layer, key, low, high]) = confirmed.last().map(|command| &command[..]) {
            let place = 96 * usize::from(layer) + usize::from(key);
            let wanted = if operation == 1 { u16::from_le_bytes([low, high]) } else { F::Layout::code_at(place).bits() };
            assert_eq!(code::<F>(self.cells, layer, key), wanted, "what the host saw the end of is not stored");
        }
        F::round(self.driver, &mut self.usb);
    }

    /// The host does this, and the device serves it.
    pub fn act(&mut self, act: Act) {
        self.wire.borrow_mut().act(act);
        self.serve();
        self.usb.work();
        self.serve();
    }

    pub fn is_free(&self) -> bool {
        self.wire.borrow().line.host.is_free()
    }

    /// The host goes on with its transfer to its end.
    pub fn ends(&mut self) {
        for _ in 0..500 {
            if self.is_free() {
                return self.serve();
            }
            let act = self.wire.borrow().line.host.due();
            self.act(act);
        }
        panic!("{:02x?} waits for ever", self.wire.borrow().line.host.setup());
    }

    /// A whole transfer: what it reads, or `None` where it is stalled.
    pub fn asks(&mut self, setup: [u8; 8], data: &[u8]) -> Option<Vec<u8>> {
        let before = self.wire.borrow().line.counts.stalls;
        self.wire.borrow_mut().line.sends = Some(data.to_vec());
        self.act(Act::Setup(setup));
        self.ends();
        let line = &self.wire.borrow().line;
        (line.counts.stalls == before).then(|| line.read.clone())
    }

    /// A transfer that is not stalled.
    pub fn transfer(&mut self, setup: [u8; 8], data: &[u8]) -> Vec<u8> {
        self.asks(setup, data).unwrap_or_else(|| panic!("{setup:02x?} is stalled"))
    }

    /// The host asks for a report often enough.
    pub fn polls(&mut self) {
        (0..3 * 8).for_each(|_| self.act(Act::Poll));
    }

    /// The newest report that the host knows of this ID and length.
    pub fn known(&self, id: u8, length: usize) -> Option<Vec<u8>> {
        self.wire.borrow().line.known.get(&(id, length)).cloned()
    }

    /// The host reads the device descriptor, gives an address, 9, and configures.
    pub fn enumerates(&mut self) {
        assert_eq!(self.transfer([0x80, 6, 0, 1, 0, 0, 18, 0], &[]), F::product().descriptors().device);
        self.transfer([0, 5, 9, 0, 0, 0, 0, 0], &[]);
        assert_eq!(self.wire.borrow().registers.address(), 9, "the address behind SET_ADDRESS");
        self.transfer(SET_CONFIGURATION, &[]);
    }

    /// The host enables remote wakeup, where the product has it: whether it has.
    pub fn enables_wakeup(&mut self) -> bool {
        let has = F::product().identity().remote_wakeup;
        assert_eq!(self.asks(ENABLE_WAKEUP, &[]).is_some(), has, "remote wakeup is as the product says");
        has
    }

    /// Key 0 becomes the letter b: bit 1 after the modifiers.
    pub fn sets_a_key(&mut self) {
        self.transfer(SET_FEATURE, &[3, 1, 0, 0, 5, 0]);
    }

    /// Key 0 goes down or up.
    pub fn presses(&mut self, down: bool) {
        self.holds(u16::from(down));
    }

    /// These of the first keys are down.
    pub fn holds(&mut self, keys: u16) {
        (0..5).for_each(|_| self.usb.scan_rows([keys, 0, 0, 0, 0, 0]));
    }
}
