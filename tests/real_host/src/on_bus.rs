// SPDX-License-Identifier: MIT OR Apache-2.0
//! What a host and two hands do to a keyboard: each that can do it may take the place of the one in memory.

use wuzhikar::{KeyNo, Scan};

/// What a control transfer ended in.
#[derive(Debug, PartialEq, Eq)]
pub enum Ended {
    /// The data of a read; of a write none.
    Data(Vec<u8>),
    /// It was stalled, or a packet of it waits for ever.
    Stall,
    /// The power went, inside a step of the flash work, and is back.
    Gone,
}

/// What the keyboard answered to a poll of endpoint 1.
#[derive(Debug, PartialEq, Eq)]
pub enum Polled {
    Packet(Vec<u8>),
    Nak,
    Stall,
    /// The endpoint is off.
    Nothing,
}

/// What a bridge tells a host before the host has asked the keyboard.
#[derive(Clone, Copy, Debug)]
pub struct About {
    /// idVendor, idProduct, bcdDevice.
    pub numbers: [u16; 3],
    /// The bytes of a packet of endpoint 1, and its interval in milliseconds.
    pub packet: usize,
    pub interval: u8,
}

/// A keyboard on a bus, for a host that asks by whole control transfers. No type of a USB device layer stands in it.
pub trait OnBus {
    /// What it tells of itself.
    fn about(&self) -> About;
    /// A whole control transfer. Where a packet is told to wait, the flash works.
    fn control(&mut self, setup: [u8; 8], data: &[u8]) -> Ended;
    /// A packet of endpoint 1.
    fn poll(&mut self) -> Polled;
    /// A bus reset.
    fn bus_reset(&mut self);
    /// A millisecond: a scan, and a step of the flash work.
    fn millisecond(&mut self, scan: Scan);
    /// The LEDs.
    fn leds(&self) -> u8;
    /// The power goes and comes back: the flash is all that is left.
    fn cut(&mut self);
    /// The power is to go inside the flash operation of the next command, as far as this mask lets it.
    fn tear(&mut self, mask: Vec<u8>);
    /// How often a packet of a control transfer was told to wait, since the last look. `None`: it has a time of its own.
    fn waits(&mut self) -> Option<usize>;
    /// The bytes of the flash; of one that can't be read while it runs, as they were when the power went last.
    fn image(&self) -> &[u8];
}

/// A scan with these keys closed.
pub fn scan_of(keys: &[u8]) -> Scan {
    keys.iter().filter_map(|key| KeyNo::read(*key).ok()).fold(Scan::NONE, |scan, key| scan.with_key(key, true))
}

/// A bus reset, and the address that a host gives after it. Neither usbip nor usbredir tells the address.
pub fn plug(device: &mut dyn OnBus) {
    device.bus_reset();
    if device.control([0, 5, 1, 0, 0, 0, 0, 0], &[]) != Ended::Data(Vec::new()) {
        crate::tell("the device takes no address");
    }
}
