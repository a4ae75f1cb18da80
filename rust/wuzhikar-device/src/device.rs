// SPDX-License-Identifier: MIT OR Apache-2.0

//! The device at the token: for a controller that asks the firmware at each token, for tests, and for a host's side.

use crate::keys::{HasKeyboard, Keys};
use crate::parts::usb_device::Device as Layered;
use crate::{Buffers, Change, DeviceLayer, Endpoint1, Endpoints, EpAnswer, PollAnswer, Product, Report};
use wuzhikar::{Defaults, Keyboard, KeyboardOf, Layout, NorFlash, PageCount, Scan, UnstartedKeyboardOf, Why, Work};

/// What lies between the device and a token of endpoint 1: a packet, and what the endpoint was set to.
#[derive(Debug, Default)]
struct Slot {
    packet: Option<Report>,
    taken: usize,
    state: Option<Endpoint1>,
}

impl Buffers for Slot {
    fn has_two(&self) -> bool {
        false
    }

    fn taken_1(&mut self) -> usize {
        core::mem::take(&mut self.taken)
    }

    fn begin_anew(&mut self, state: Endpoint1) {
        *self = Slot { packet: None, taken: 0, state: Some(state) };
    }

    fn give_up(&mut self) {
        (self.packet, self.taken) = (None, 0);
    }

    fn host_began(&mut self) {}

    fn forget(&mut self) {
        *self = Slot::default();
    }

    fn input_1(&mut self, packet: Report) {
        self.packet = Some(packet);
    }
}

/// A keyboard on its flash behind the USB device layer, for tests and for controllers that ask at each token.
///
/// Each call is what the controller has met, and the answer is what it puts onto the bus. The host is taken to have what it
/// was given. A power loss is `restart`, or `into_flash` and another `start`: the flash is all that is left.
///
/// ```
/// use wuzhikar::SimFlash;
/// use wuzhikar_device::{Device, EpAnswer, Product};
///
/// let mut device = Device::start(SimFlash::blank(2)?, &Product::TEST)?;
/// // GET_DESCRIPTOR of the device descriptor, packet by packet.
/// device.setup([0x80, 0x06, 0, 1, 0, 0, 18, 0]);
/// let (EpAnswer::Packet(packet), None) = device.in_packet() else { panic!("a packet") };
/// assert_eq!((packet.len(), packet[0]), (8, 18));
/// // The host has read enough: the empty packet of the status stage.
/// assert_eq!(device.out(&[]), EpAnswer::Ack);
/// # Ok::<(), Box<dyn core::error::Error>>(())
/// ```
pub struct Device<'a, F: NorFlash, K: HasKeyboard = Keyboard> {
    layered: Layered<'a, Keys<F, K>, Slot>,
    product: &'a Product<'a>,
}

impl<'a, F: NorFlash> Device<'a, F> {
    /// Starts a device on a flash, whose keymap it reads: it has no address, and is not configured (USB 2.0 section 9.1.1).
    ///
    /// # Errors
    ///
    /// `PageCount` if the flash has not 2 to 8 pages. It is neither read nor written then, and dropped.
    pub fn start(flash: F, product: &'a Product<'a>) -> Result<Device<'a, F>, PageCount> {
        Ok(Device::from_keys(Keys::start(flash)?, product))
    }
}

impl<'a, F: NorFlash, L: Layout> Device<'a, F, KeyboardOf<L>> {
    /// Starts a device as `start` does, with the default codes of a layout.
    ///
    /// # Errors
    ///
    /// `PageCount`, as there.
    pub fn start_with(flash: F, product: &'a Product<'a>, layout: L) -> Result<Device<'a, F, KeyboardOf<L>>, PageCount> {
        Ok(Device::from_keys(Keys::start_with(flash, layout)?, product))
    }
}

impl<'a, 'm, F: NorFlash, D: Defaults> Device<'a, F, &'m mut KeyboardOf<D>> {
    /// Starts a device as `start` does, in memory that is lent, as that of a `static`: nothing large is moved.
    ///
    /// # Errors
    ///
    /// `PageCount`, as there.
    pub fn start_in(
        memory: &'m mut UnstartedKeyboardOf<D>,
        flash: F,
        product: &'a Product<'a>,
    ) -> Result<Device<'a, F, &'m mut KeyboardOf<D>>, PageCount> {
        Ok(Device::from_keys(Keys::start_in(memory, flash)?, product))
    }
}

impl<'a, F: NorFlash, K: HasKeyboard> Device<'a, F, K> {
    /// Makes a device of a keyboard that has just started.
    fn from_keys(keys: Keys<F, K>, product: &'a Product<'a>) -> Device<'a, F, K> {
        let layer = DeviceLayer::new(product.descriptors());
        let size = product.identity().packet_size;
        Device { layered: Layered::new(layer, keys, Slot::default(), size), product }
    }

    /// Starts over on this flash as it is, as after a power loss.
    pub fn restart(&mut self) {
        self.layered.bus_reset();
        self.layered.behind.restart();
    }

    /// Drops the device, and returns the flash as it is.
    pub fn into_flash(self) -> F {
        self.layered.behind.into_flash()
    }

    /// Returns the product whose descriptors it has.
    pub fn product(&self) -> &'a Product<'a> {
        self.product
    }

    /// Returns whether endpoint 1 is off, ready or halted (USB 2.0 section 9.4.5).
    pub fn endpoint_1(&self) -> Endpoint1 {
        self.layered.layer.endpoint_1()
    }

    /// Returns the keyboard, to look at it: its keymap, its LEDs, its protocol.
    pub fn keyboard(&self) -> &KeyboardOf<K::Defaults> {
        self.layered.behind.keyboard()
    }

    /// Returns the flash, to look at it.
    pub fn flash(&self) -> &F {
        self.layered.behind.flash()
    }

    /// Lends the flash, under the condition of `flash_mut` of [`Keys`].
    pub fn flash_mut(&mut self) -> &mut F {
        self.layered.behind.flash_mut()
    }

    /// Takes a scan of the matrix, one each millisecond.
    pub fn scan(&mut self, scan: Scan) {
        self.layered.scan();
        self.layered.behind.scan(scan);
    }

    /// Takes a SETUP packet of endpoint 0, which the controller acknowledges by itself (USB 2.0 section 8.5.3).
    pub fn setup(&mut self, packet: [u8; 8]) {
        self.layered.setup(packet);
    }

    /// Takes an OUT packet of endpoint 0, of 0 to 8 bytes, and answers ACK, NAK or STALL.
    pub fn out(&mut self, packet: &[u8]) -> EpAnswer {
        self.layered.out(packet)
    }

    /// Answers an IN token of endpoint 0 with a packet of 0 to 8 bytes, NAK or STALL. The second part is what the controller
    /// has to do once that is on the bus.
    pub fn in_packet(&mut self) -> (EpAnswer, Option<Change>) {
        let answer = self.layered.in_packet();
        let mut change = None;
        if matches!(&answer, EpAnswer::Packet(packet) if packet.is_empty()) {
            self.layered.is_done();
            let state = self.layered.buffers.state.take().map(Change::Endpoint);
            change = state.or(self.layered.address_due().map(Change::Address));
        }
        (answer, change)
    }

    /// Returns why the transfer under way was stalled. A host on a real bus does not see it.
    pub fn why(&self) -> Why {
        self.layered.behind.why().unwrap_or(Why::WrongStage)
    }

    /// Answers an IN token of endpoint 1: with a packet of the report under way, else with the first one of the report that
    /// is due.
    pub fn poll(&mut self) -> PollAnswer {
        match self.endpoint_1() {
            Endpoint1::Off => return PollAnswer::Nothing,
            Endpoint1::Halted => return PollAnswer::Stall,
            Endpoint1::Ready => self.layered.serve_reports(),
        }
        let slot = &mut self.layered.buffers;
        slot.taken += usize::from(slot.packet.is_some());
        slot.packet.take().map_or(PollAnswer::Nak, PollAnswer::Data)
    }

    /// Takes a bus reset (USB 2.0 section 7.1.7.5): the address is 0, and endpoint 1 is off. The flash work goes on.
    pub fn bus_reset(&mut self) {
        self.layered.bus_reset();
    }

    /// Takes a suspend of the bus (USB 2.0 section 7.1.7.6). [`resumed`](Self::resumed), a SETUP packet and a bus reset end it.
    pub fn suspended(&mut self) {
        self.layered.suspend();
    }

    /// Takes the end of a suspend (USB 2.0 section 7.1.7.7).
    pub fn resumed(&mut self) {
        self.layered.resume();
    }

    /// Makes the next flash operation of a command, one at most. After `Settled` and `Failed` the status stage of a transfer
    /// that waits for it is due.
    pub fn work(&mut self) -> Work {
        self.layered.behind.work()
    }

    /// Returns whether a command may work, as `may_work` of [`Keys`] does.
    pub fn may_work(&self) -> bool {
        self.layered.behind.may_work()
    }

    /// Returns the LEDs: Num Lock, Caps Lock, Scroll Lock, Compose, Kana in bits 0 to 4 (HUT page 08h).
    pub fn leds(&self) -> u8 {
        self.layered.behind.leds()
    }
}
